module browser
