"""What `tools/serve` has for systemd: a unit, and the notes of a service of the type notify."""

from __future__ import annotations

import os
import pathlib
import socket

from nipakeel_tools.command import Options

# Statuses after which a new start is of no use: wrong words, a folder or a program that can't be used, files that are no
# store or a damaged one, another shape, no program, and a file that was lost.
FINAL = (2, 3, 6, 7, 70, 72)
UNIT = """\
# A service of systemd for the store in {folder}. Put it into /etc/systemd/system/NAME.service, and choose the User, who owns
# the folder of the store. Others reach the socket by --mode=0660 and a Group.
[Unit]
Description=Nipakeel, the store in {folder}
RequiresMountsFor={quoted}

[Service]
Type=notify
ExecStart={call}
User={user}
{runtime}UMask=0077
# A start may have to prove and build the program. `./nipakeel` does so before.
TimeoutStartSec=infinity
TimeoutStopSec={stop:g}
Restart=on-failure
RestartSec=5
RestartPreventExitStatus={final}
KillMode=mixed
NoNewPrivileges=yes
PrivateNetwork=yes
ProtectSystem=strict
ReadWritePaths={written}

[Install]
WantedBy=multi-user.target
"""
RUNTIME = pathlib.Path("/run")


def quoted(word: str) -> str:
    """A word of a unit, in which % and quotes mean themselves."""
    word = word.replace("%", "%%")
    plain = word and not any(it in " \t\n\"'\\;$" for it in word)
    escaped = word.replace("\\", "\\\\").replace('"', '\\"').replace("\n", "\\n")
    return word if plain else f'"{escaped}"'


def unit(tool: pathlib.Path, options: Options, user: str, stop: float) -> str:
    """The text of a unit that calls the tool with these options."""
    folder, path = os.path.abspath(options.folder), os.path.abspath(options.socket)
    words = [str(tool), "--folder", folder, "--socket", path, f"--mode={options.mode:04o}"]
    words += [f"--wait={options.wait:g}", f"--line-timeout={options.line_timeout:g}", f"--idle={options.idle:g}"]
    words += ["--backups", str(options.backups)] if options.backups else []
    words += ["--program", options.program] if options.own_program else []
    words += ["--", *options.words] if options.words else []
    written = [folder] + ([str(options.backups)] if options.backups else [])
    where = pathlib.Path(path).parent
    # A folder below /run has to be made. Other services may use it, too.
    runtime = f"RuntimeDirectory={where.relative_to(RUNTIME)}\nRuntimeDirectoryPreserve=yes\n" if RUNTIME in where.parents else ""
    if not runtime:
        written.append(str(where))
    return UNIT.format(
        folder=folder.replace("%", "%%").replace("\n", " "),
        quoted=quoted(folder),
        call=" ".join(quoted(it).replace("$", "$$") for it in words),
        user=user,
        runtime=runtime,
        stop=stop,
        final=" ".join(map(str, FINAL)),
        written=" ".join(quoted(it) for it in dict.fromkeys(written)),
    )


def notify(*notes: str) -> None:
    """Tells these notes to the manager of services that has started this process, if one has."""
    path = os.environ.get("NOTIFY_SOCKET", "")
    if not path.startswith(("/", "@")):
        return
    with socket.socket(socket.AF_UNIX, socket.SOCK_DGRAM) as sender:
        try:
            sender.connect("\0" + path[1:] if path.startswith("@") else path)
            sender.send("\n".join(notes).encode())
        except OSError:
            # A service is as good without them.
            pass
