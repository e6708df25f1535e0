"""`vlbi.completion`: what bash and zsh complete, as a shell does it."""
from __future__ import annotations

import os
import pty
import select
import shutil
import subprocess
import time
from pathlib import Path

import pytest

from vlbi import completion

BASH_COMPLETION = Path("/usr/share/bash-completion/bash_completion")

BASH = r"""
source /usr/share/bash-completion/bash_completion
source ./vlbi
COMP_WORDS=("$@") COMP_CWORD=$(($# - 1)) COMP_LINE="$*" COMP_POINT=${#COMP_LINE} COMP_TYPE=9
_vlbi "$1" "${!#}" "${@: -2:1}"
printf '%s\n' "${COMPREPLY[@]}"
"""

CASES = [
    # the words so far, the last one begun, and what completes it
    (["vlbi", "night.journal", "st"], ["status"]),
    (["vlbi", "night.journal", "gen", "--se"], ["--seed", "--seconds"]),
    (["vlbi", "night.journal", "run", "--job", "jo"], ["job.txt"]),
    (["vlbi", "night.journal", "run", "--e"], ["--epoch"]),
    (["vlbi", "night.journal", "status", "--e"], ["--epoch"]),
    (["vlbi", "night.journal", "sh"], ["shard"]),
    (["vlbi", "night.journal", "shard", "--fr"], ["--from"]),
    (["vlbi", "night.journal", "shard", "--from", "2", "--to", ""], [""]),
    (["vlbi", "night.journal", "me"], ["merge"]),
    (["vlbi", "night.journal", "merge", "--"], ["--job", "--vex"]),
    (["vlbi", "night.journal", "merge", "--job", "jo"], ["job.txt"]),
    (["vlbi", "night.journal", "merge", "fi"], ["first.journal"]),
    (["vlbi", "night.journal", "merge", "--job", "job.txt", "first.journal", "se"], ["second.journal"]),
    (["vlbi", "night.journal", "merge", "first.journal", "second.journal", "--v"], ["--vex"]),
    (["vlbi", "night.journal", "merge", "--ep"], [""]),
    (["vlbi", "night.journal", "run", "--fr"], [""]),
    (["vlbi", "night.journal", "plain", "--e"], [""]),
    (["vlbi", "night.journal", "check", "--epoch", ""], [""]),
    (["vlbi-watch", "--ep"], ["--epoch"]),
    (["vlbi-run", "j", "--w"], ["--workers", "--where"]),
    (["vlbi-plot", "--what", "m"], ["map"]),
    (["vlbi-plot", "--dpi", ""], [""]),
    (["vlbi-lint", "jo"], ["job.txt"]),
    (["vlbi-cluster", "s"], ["submit", "status"]),
    (["vlbi-cluster", "plan", "jo"], ["job.txt"]),
    (["vlbi-cluster", "plan", "--no"], ["--nodes"]),
    (["vlbi-plot", "--certificate", "jo"], ["job.txt"]),
    (["/usr/bin/vlbi-report", "sky.vis", "--tit"], ["--title"]),
]


@pytest.fixture
def folder(tmp_path: Path, monkeypatch: pytest.MonkeyPatch) -> Path:
    monkeypatch.chdir(tmp_path)
    (tmp_path / "vlbi").write_text("".join(completion.bash()))
    (tmp_path / "_vlbi").write_text("".join(completion.zsh()))
    for name in ("job.txt", "first.journal", "second.journal"):
        (tmp_path / name).write_text("")
    return tmp_path


@pytest.mark.skipif(not BASH_COMPLETION.exists(), reason="bash-completion is not there")
@pytest.mark.parametrize("words, said", CASES, ids=[" ".join(row[0]) for row in CASES])
def test_bash(folder: Path, words: list[str], said: list[str]) -> None:
    done = subprocess.run(["bash", "--norc", "-c", BASH, "bash", *words], capture_output=True, text=True)
    assert sorted(done.stdout.split("\n")[:-1]) == sorted(said), done.stderr


@pytest.mark.skipif(shutil.which("zsh") is None, reason="zsh is not there")
@pytest.mark.parametrize("line, said", [
    ("vlbi-plot --what m", "vlbi-plot --what map"),
    ("vlbi j st", "vlbi j status"),
    ("vlbi j gen --see", "vlbi j gen --seed"),
    ("vlbi j run --ep", "vlbi j run --epoch"),
    ("vlbi j shard --fr", "vlbi j shard --from"),
    ("vlbi j me", "vlbi j merge"),
    ("vlbi j merge fi", "vlbi j merge first.journal"),
    ("vlbi j merge --job job.txt first.journal se", "vlbi j merge --job job.txt first.journal second.journal"),
    ("vlbi-lint jo", "vlbi-lint job.txt"),
    ("vlbi-cluster pl", "vlbi-cluster plan"),
])
def test_zsh(folder: Path, line: str, said: str) -> None:
    """A shell in a terminal completes the line."""
    process, terminal = pty.fork()
    if process == 0:
        os.execvpe("zsh", ["zsh", "-f", "-i"], {**os.environ, "TERM": "dumb", "PS1": "", "HOME": str(folder)})
    try:
        os.write(terminal, b"unsetopt zle_bracketed_paste; fpath=($PWD $fpath); autoload -Uz compinit; compinit -u -D; print read''y\n")
        assert "ready" in read_until(terminal, "ready")
        os.write(terminal, f"{line}\t".encode())
        assert said in read_until(terminal, said)
    finally:
        os.close(terminal)
        os.kill(process, 9)
        os.waitpid(process, 0)


def read_until(terminal: int, words: str) -> str:
    """What a terminal shows until it shows these words, or for a minute."""
    shown, until = "", time.monotonic() + 60
    while words not in shown and time.monotonic() < until:
        if select.select([terminal], [], [], 0.2)[0]:
            shown += os.read(terminal, 4096).decode("utf-8", "replace")
    return shown
