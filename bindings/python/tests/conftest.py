"""What the tests share."""

import pytest
from h26x import Codec


@pytest.fixture(params=list(Codec), ids=lambda codec: str(codec.name))
def codec(request: pytest.FixtureRequest) -> Codec:
    """Each codec."""
    found: Codec = request.param
    return found
