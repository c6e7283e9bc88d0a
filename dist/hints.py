"""Says where a shell or `man` doesn't find by itself what was installed, and what to do."""
import os
import shlex
import shutil
import subprocess


def data_folders():
    """The folders in which bash-completion and fish look: the user's, then those of the system."""
    home = os.environ.get("XDG_DATA_HOME") or f"{os.path.expanduser('~')}/.local/share"
    return [home, *(os.environ.get("XDG_DATA_DIRS") or "/usr/local/share:/usr/share").split(":")]


def lines_of(words):
    """The lines that a program prints; none where it can't be run or fails."""
    try:
        said = subprocess.run(words, stdin=subprocess.DEVNULL, stdout=subprocess.PIPE, stderr=subprocess.DEVNULL, text=True, timeout=60)
        return said.stdout.splitlines() if said.returncode == 0 else None
    except (OSError, UnicodeDecodeError, subprocess.TimeoutExpired):
        return None


def is_among(folder, folders):
    """Whether a folder is one of these."""
    return os.path.realpath(folder) in map(os.path.realpath, filter(None, folders))


def is_in(name, folder):
    """Whether a file of the home, as ~/.bashrc, names a folder, be it by ~ or by HOME."""
    home = os.path.expanduser("~")
    names = [folder, *(f"{it}{folder.removeprefix(home)}" for it in ("~", "$HOME", "${HOME}") if folder.startswith(f"{home}/"))]
    try:
        with open(f"{home}/{name}", encoding="utf-8", errors="replace") as file:
            text = file.read()
    except OSError:
        return False
    return any(it in text for it in names)


def of_path(folder):
    """The folder of the programs."""
    if folder not in os.environ.get("PATH", "").split(os.pathsep):
        yield f"{folder} isn't on the PATH"


def of_man(folder):
    """The folder of the manual pages, where there is `man`."""
    found = lines_of(["manpath", "-q"]) if shutil.which("man") else None
    if found and not is_among(os.path.dirname(folder), found[0].split(":")):
        place = shlex.quote(os.path.dirname(folder))
        yield f"man doesn't look into {place}: put `export MANPATH={place}:` into ~/.profile"


def of_bash(folder):
    """The folder of the completions for bash."""
    file = shlex.quote(f"{folder}/cargo-config2")
    if is_in(".bashrc", folder):
        return
    looked_at = [f"{it}/bash-completion/completions" for it in data_folders()]
    if not os.path.isfile("/usr/share/bash-completion/bash_completion"):
        yield f"bash has no bash-completion: put `. {file}` into ~/.bashrc for completions"
    elif is_among(folder, looked_at):
        yield f"bash completes cargo-config2; for `cargo config2` put `. {file}` into ~/.bashrc"
    else:
        yield f"bash doesn't look into {shlex.quote(folder)}: put `. {file}` into ~/.bashrc for completions"


def of_zsh(folder):
    """The folder of the completions for zsh, where there is zsh."""
    found = lines_of(["zsh", "-fc", "print -l $fpath"]) if shutil.which("zsh") else None
    if found is not None and not is_among(folder, found) and not is_in(".zshrc", folder):
        yield f"zsh doesn't look into {shlex.quote(folder)}: put `fpath=({shlex.quote(folder)} $fpath)` above compinit in ~/.zshrc"


def of_fish(folder):
    """The folder of the completions for fish, where there is fish."""
    if shutil.which("fish") and not is_among(folder, [f"{it}/fish/vendor_completions.d" for it in data_folders()]):
        place, start = shlex.quote(folder), shlex.quote(f"{os.path.dirname(folder)}/vendor_conf.d/cargo-config2.fish")
        yield f"fish doesn't look into {place}: put `set -p fish_complete_path {place}; source {start}` into config.fish"


def all_of(folders):
    """All lines for these folders."""
    asked = {"bin": of_path, "man": of_man, "bash": of_bash, "zsh": of_zsh, "fish": of_fish}
    return [line for kind, lines in asked.items() for line in lines(folders[kind])]
