# What the commands at the root need on the machine; sourced by them, not run.
# The kit that this repository was proved with, as `rt version` prints it; README.md says the same.
kit='rattle-kit-13f logic dac8208d650f15bf'

say() { printf '%s: %s\n' "$(basename "$0")" "$*"; }

need() { # COMMAND, WHAT FOR
    if ! command -v "$1" >/dev/null; then
        say "the command $1 is missing, for $2. README.md, 'What it needs', names it." >&2
        exit 2
    fi
}

need rt "everything here: it comes with the Rattle kit"
if [ "$(rt version)" = "$kit" ]; then
    say "kit: $kit"
else
    say "kit: $(rt version). This repository was proved with: $kit. Going on: the verdict is that of the kit at hand."
fi
