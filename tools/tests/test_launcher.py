"""`packaging/launcher`, which is installed as `vlbi`: scripts that say what they got stand in for the builds, and a file for /proc/cpuinfo."""
from __future__ import annotations

import os
import re
import shlex
import signal
import subprocess
from pathlib import Path

import pytest

LAUNCHER = Path(__file__).parents[2] / "packaging" / "launcher"
LOADER = Path("/lib64/ld-linux-x86-64.so.2")
V2 = "cx16 lahf_lm pni popcnt sse4_1 sse4_2 ssse3".split()
V3 = "abm avx avx2 bmi1 bmi2 f16c fma movbe".split()

BUILD = r"""#!/bin/sh
echo "${0##*/} $$"
printf '<%s>\n' "$@"
cat
[ "$1" != die ] || kill -TERM $$
exit 10
"""


def installed(folder: Path, flags: list[str] | None = None) -> Path:
    """The launcher with both builds, on a processor that has these flags; without any its file is not there."""
    text = LAUNCHER.read_text().replace("/proc/cpuinfo", shlex.quote(str(folder / "cpuinfo")))
    program(folder / "bin" / "vlbi", text)
    for level in ("v2", "v3"):
        program(folder / "lib" / "vlbi" / f"vlbi-x86-64-{level}", BUILD)
    if flags is not None:
        processor = f"processor\t: 0\nmodel name\t: flags of no kind\nflags\t\t: fpu {' '.join(flags)} sse\nbugs\t\t: avx2\n\n"
        (folder / "cpuinfo").write_text(2 * processor)
    return folder / "bin" / "vlbi"


def program(path: Path, text: str) -> None:
    path.parent.mkdir(parents=True, exist_ok=True)
    path.write_text(text)
    path.chmod(0o755)


def call(*words: str | Path, given: str = "", cpu: str | None = None) -> tuple[int, list[str], str]:
    """The status of a call, the lines on its standard output without the number of the process, and its standard error."""
    environment = {name: value for name, value in os.environ.items() if name != "VLBI_CPU"}
    if cpu is not None:
        environment["VLBI_CPU"] = cpu
    started = subprocess.Popen(words, stdin=subprocess.PIPE, stdout=subprocess.PIPE, stderr=subprocess.PIPE, text=True, env=environment)
    said, notes = started.communicate(given)
    return started.returncode, said.replace(f" {started.pid}\n", "\n").splitlines(), notes


def build_of(*words: str | Path, cpu: str | None = None) -> str:
    """The build that such a call runs, in the place of the launcher."""
    status, said, notes = call(*words, cpu=cpu)
    assert (status, said[1:], notes) == (10, ["<>"], "")
    return said[0].removeprefix("vlbi-x86-64-")


def test_the_best_build_is_run(tmp_path: Path) -> None:
    assert build_of(installed(tmp_path, [*V2, *V3])) == "v3"
    assert build_of(installed(tmp_path, V2)) == "v2"


@pytest.mark.parametrize("flag", V3)
def test_without_one_instruction_of_v3(tmp_path: Path, flag: str) -> None:
    assert build_of(installed(tmp_path, [*V2, *(it for it in V3 if it != flag), f"{flag}x"])) == "v2"


@pytest.mark.parametrize("flag", V2)
def test_without_one_instruction_of_v2(tmp_path: Path, flag: str) -> None:
    refused: tuple[int, list[str], str] = (126, [], f"vlbi: the program is not for this processor, which lacks {flag}\n")
    assert call(installed(tmp_path, [*V3, *(it for it in V2 if it != flag)])) == refused


def test_flags_that_cannot_be_read(tmp_path: Path) -> None:
    assert build_of(installed(tmp_path)) == "v2"


def test_one_build_alone(tmp_path: Path) -> None:
    vlbi = installed(tmp_path, [*V2, *V3])
    (tmp_path / "lib/vlbi/vlbi-x86-64-v3").unlink()
    assert build_of(vlbi) == "v2"
    assert call(vlbi, cpu="x86-64-v3") == (126, [], f"vlbi: there is no program {tmp_path}/bin/../lib/vlbi/vlbi-x86-64-v3\n")
    (tmp_path / "lib/vlbi/vlbi-x86-64-v2").unlink()
    assert call(vlbi) == (126, [], f"vlbi: there is no program {tmp_path}/bin/../lib/vlbi/vlbi-x86-64-v2\n")


def test_a_build_by_its_name(tmp_path: Path) -> None:
    vlbi = installed(tmp_path, V2)
    assert [build_of(vlbi, cpu=cpu) for cpu in ("x86-64-v3", "x86-64-v2", "")] == ["v3", "v2", "v2"]
    for cpu in ("x86-64-v4", "v3", "../vlbi-x86-64-v3", "x86-64-v2 "):
        assert call(vlbi, cpu=cpu) == (126, [], f"vlbi: VLBI_CPU is {cpu}, and not x86-64-v2 or x86-64-v3\n")


def test_words_input_and_status_are_handed_on(tmp_path: Path) -> None:
    words = ["a journal", "", "--job=a  b", "*", "\\n$HOME`", "-n"]
    said = ["vlbi-x86-64-v3", *(f"<{word}>" for word in words), "of the input", "  and more"]
    assert call(installed(tmp_path, [*V2, *V3]), *words, given="of the input\n  and more\n") == (10, said, "")


def test_an_end_by_a_signal_is_the_programs(tmp_path: Path) -> None:
    assert call(installed(tmp_path, V2), "die") == (-signal.SIGTERM, ["vlbi-x86-64-v2", "<die>"], "")


def test_where_it_is_called_from(tmp_path: Path, monkeypatch: pytest.MonkeyPatch) -> None:
    vlbi = installed(tmp_path / "a prefix", V2)
    (tmp_path / "link").symlink_to(vlbi)
    assert build_of(tmp_path / "link") == "v2"
    monkeypatch.setenv("PATH", f"{vlbi.parent}:{os.environ['PATH']}")
    assert build_of("vlbi") == "v2"
    monkeypatch.chdir(vlbi.parent)
    assert [build_of("./vlbi"), build_of("sh", "vlbi")] == ["v2", "v2"]


def test_this_processor(tmp_path: Path) -> None:
    """What the C library says of this processor."""
    told = subprocess.run([str(LOADER), "--help"], capture_output=True, text=True).stdout if LOADER.exists() else ""
    levels = re.findall(r"x86-64-(v[23]) \(supported", told)
    if not levels:
        pytest.skip("the C library does not tell levels")
    vlbi = installed(tmp_path)
    vlbi.write_text(LAUNCHER.read_text())
    assert build_of(vlbi) == max(levels)
