module units
