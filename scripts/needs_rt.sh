# Ends the script that reads this file where the Rattle kit is not there.
if ! command -v rt > /dev/null; then
    echo "this needs the Rattle kit: its command rt is not on the PATH (README, \"Build, run, test\")" >&2
    exit 1
fi
