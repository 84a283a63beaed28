#!/bin/sh
# Runs the commands of SCALE.md in a folder of its own, and compares what they print (docs/blocks.py). A stand-in for ssh runs the commands of other machines in a folder of this
# one. Needs GNU parallel and rsync. Usage: docs/scale.sh [PQSCAN]
set -eu
here=$(cd "$(dirname "$0")" && pwd)
program=${1:-$here/../crates/pqscan/out/pqscan}
for word in parallel rsync "$program"; do
    command -v "$word" >/dev/null || {
        echo "scale.sh: $word is not there" >&2
        exit 1
    }
done
work=$(mktemp -d)
trap 'rm -rf "$work"' EXIT
mkdir "$work/bin" "$work/run" "$work/machines" "$work/home"
cp "$program" "$work/bin/pqscan"
cat > "$work/bin/stand_in" <<END
#!/bin/sh
while [ \$# -gt 0 ]; do
    case \$1 in
    -l | -p | -o | -i | -F | -S) shift 2 ;;
    -*) shift ;;
    *) break ;;
    esac
done
mkdir -p "$work/machines/\$1" && cd "$work/machines/\$1" || exit 255
shift
[ "\$1" != -- ] || shift
HOME=\$PWD exec sh -c "\$*"
END
chmod +x "$work/bin/stand_in"
export HOME="$work/home" PATH="$work/bin:$PATH" PARALLEL_SSH="$work/bin/stand_in" SOURCES="$here/.."
mkdir -p "$HOME/.parallel" && touch "$HOME/.parallel/will-cite"
cd "$work/run"
# (what parallel hands through of its jobs also stands in their files: so only the end of what is printed is compared)
exec "$here/blocks.py" "$here/SCALE.md"
