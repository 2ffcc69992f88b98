"""The examples of the documents run as they stand."""

import doctest
import os
import re
import subprocess
import sys
from importlib import import_module
from pathlib import Path

import h26x
import pytest
from h26x import Codec, _library
from rfc import STREAMS, split, stream

HERE = Path(__file__).parents[1]


DOCUMENTED = (
    "packetizer",
    "depacketizer",
    "receiver",
    "access_unit_receiver",
    "look",
    "profile",
    "sdp",
    "rtp",
    "rtcp",
    "rtp_sender",
)


@pytest.mark.parametrize("name", ["", *("." + name for name in DOCUMENTED)])
def test_examples_in_the_documentation(name: str) -> None:
    ran = doctest.testmod(import_module("h26x" + name))
    assert ran.attempted > 0 and ran.failed == 0


def test_examples_of_the_readme() -> None:
    codes = re.findall(r"```python\n(.*?)```", (HERE / "README.md").read_text(), re.S)
    assert len(codes) >= 2
    for code in codes:
        exec(compile(code, "README.md", "exec"), {})


@pytest.mark.parametrize("lost", ["0", "300"])
def test_the_example_on_a_stream(codec: Codec, lost: str, tmp_path: Path) -> None:
    if not STREAMS.is_dir():
        pytest.skip("the streams lie beside the package in its repository")
    name, back = tmp_path / "stream", tmp_path / "back"
    name.write_bytes(stream(codec))
    environment = dict(os.environ, PYTHONPATH=os.pathsep.join(sys.path))
    environment["H26X_LIBRARY"] = _library.library._name
    ran = subprocess.run(
        [sys.executable, HERE / "examples" / "stream.py", codec.name, name, back, "--lost", lost],
        env=environment,
        capture_output=True,
        text=True,
    )
    assert (ran.returncode, ran.stderr) == (0, "")
    told = re.fullmatch(r"(\d+) packets, (\d+) lost, (\d+) sent again\n", ran.stdout)
    assert told is not None and (int(told[2]) > 0) == (int(told[3]) > 0) == (lost != "0")
    assert split(codec, back.read_bytes()) == split(codec, name.read_bytes())


def test_one_version_everywhere() -> None:
    told = re.search(r'^version = "(.*)"$', (HERE / "pyproject.toml").read_text(), re.M)
    assert told is not None and told[1] == h26x.__version__
