#!/usr/bin/env bash
# From a netlist to a placed design, a picture and a DEF file: place.sh --help says how.
set -u

script=$(basename "$0")
here=$(cd "$(dirname "$(readlink -f "$0")")" && pwd) || exit 70
lef=$here/cells/cells.lef liberty=$here/cells/cells.lib
netlist_options=() proud_options=() draw_options=() words=()
work=

say() { printf '%s: %s\n' "$script" "$*" >&2; }
stop() {
    local status=$1
    shift
    say "$@"
    exit "$status"
}

help() {
    cat <<END
usage: $script [OPTION ..] NETLIST TOP OUT

Maps NETLIST, a Verilog file, to a cell library with yosys, makes a Bookshelf design of its module TOP, places it with proud,
and draws it. Where NETLIST ends in .json, it is taken for a netlist that yosys has written, and yosys isn't needed. The folder
OUT gets, by the name of TOP:

  TOP.json                                     the mapped netlist, where yosys was run
  TOP.aux .nodes .nets .pl .scl .names.json    the design
  TOP.proud.pl, TOP.report                     the placement, and what proud said
  TOP.svg, TOP.def                             the picture, and the placed design as DEF

All is made in a folder beside OUT, and moved to its place when the last file is whole. If something fails, OUT is as it was.

  --cells FILE        the cells' sizes, a LEF file (default: those of the flow)
  --liberty FILE      the cells' functions, a Liberty file with the same cells (default: those of the flow)
  --leave-out NET     leave out this net, as that of a clock or a reset; may be given again
  --utilization U, --aspect A, --pads FILE, --site NAME
                      the core and its pads, as netlist.py --help says
  --levels N, --passes N, --seats N
                      as proud has them, each at most once
  --longest N         draw the N longest nets, too

The program is \$PROUD, or that of this repository or installation, or proud on the PATH. Status 0: all is done. 2: the words or
an input are wrong, or the design is refused. 70: a program is missing. Otherwise it is that of the step that failed.
END
}

read_words() {
    while [ $# -gt 0 ]; do
        case $1 in
            -h | --help)
                help
                exit 0
                ;;
            --cells | --liberty | --leave-out | --utilization | --aspect | --pads | --site | --levels | --passes | --seats | --longest)
                [ $# -gt 1 ] || stop 2 "$1 needs a word behind it"
                take_option "$1" "$2"
                shift 2
                ;;
            -*) stop 2 "unknown option $1; $script --help says which there are" ;;
            *)
                words+=("$1")
                shift
                ;;
        esac
    done
    [ ${#words[@]} = 3 ] || stop 2 "usage: $script [OPTION ..] NETLIST TOP OUT"
}

take_option() {
    case $1 in
        --cells) lef=$2 ;;
        --liberty) liberty=$2 ;;
        --levels | --passes | --seats) proud_options+=("$1" "$2") ;;
        --longest) draw_options+=("$1" "$2") ;;
        *) netlist_options+=("$1" "$2") ;;
    esac
}

# The program: the one that is named, the repository's, the one that is installed with these scripts, or one on the PATH.
find_proud() {
    local path
    for path in "${PROUD-}" "$here/../bin/proud" "$here/../../../bin/proud" "$(command -v proud)"; do
        if [ -n "$path" ] && [ -x "$path" ] && [ ! -d "$path" ]; then
            proud=$path
            return
        fi
        [ "$path" != "${PROUD-}" ] || [ -z "$path" ] || stop 70 "there is no program $path, which PROUD names"
    done
    stop 70 "proud isn't there: it is bin/proud of the repository; PROUD=FILE names another"
}

need_programs() {
    command -v python3 >/dev/null 2>&1 || stop 70 "python3 isn't on the PATH: install Python 3.8 or later" \
        "(on Debian: apt-get install python3)"
    case $netlist in
        *.json) ;;
        *) command -v yosys >/dev/null 2>&1 || stop 70 "yosys isn't on the PATH: install it (on Debian: apt-get install yosys)," \
            "or give a netlist in JSON, as $here/examples/uart.json" ;;
    esac
    find_proud
}

need_file() {
    if [ ! -f "$1" ] || [ ! -r "$1" ]; then stop 2 "there is no file $1 that can be read"; fi
}

# Runs a step, whose name is told before, and its seconds after it.
step() {
    local name=$1 begin=$SECONDS status
    shift
    say "$name .."
    "$@"
    status=$?
    [ $status = 0 ] || stop $status "$name: failed, and nothing was written"
    say "$name: done in $((SECONDS - begin)) s"
}

# Verilog to a flat netlist of the library's cells. yosys takes the names of files in its commands for words, so there they are
# without blanks.
map() {
    local log=$work/yosys.log commands
    cp -- "$liberty" "$work/cells.lib" || return
    commands="synth -flatten -top $top; dfflibmap -liberty cells.lib; abc -liberty cells.lib; opt_clean -purge"
    commands+="; setattr -unset src; setattr -mod -unset src; rename -enumerate -pattern g%; write_json $top.json"
    if ! (cd "$work" && yosys -q -l yosys.log -p "$commands" "$netlist") >/dev/null 2>&1; then
        say "yosys: $(grep -m 1 ERROR "$log" 2>/dev/null || echo "it failed and said nothing")"
        return 2
    fi
    rm -f "$log" "$work/cells.lib"
    netlist=$work/$top.json
}

make_design() {
    python3 "$here/netlist.py" "$lef" "$netlist" -o "$work" --top "$top" --name "$top" \
        ${netlist_options[@]+"${netlist_options[@]}"} >&2
}

place() {
    "$proud" ${proud_options[@]+"${proud_options[@]}"} "$work/$top.aux" >"$work/$top.report"
    local status=$?
    cat "$work/$top.report" >&2
    return $status
}

draw() {
    python3 "$here/draw.py" "$work/$top.aux" "$work/$top.proud.pl" "$work/$top.svg" ${draw_options[@]+"${draw_options[@]}"}
}

write_def() { python3 "$here/to_def.py" "$work/$top.aux" "$work/$top.proud.pl" "$work/$top.def"; }

# Moves what was made to its place: the folder as a whole, or file by file where there is a folder already.
deliver() {
    if [ -d "$out" ]; then
        mv -f -- "$work"/* "$out"/
    else
        chmod "$(printf '%o' $((0777 & ~$(umask))))" "$work" && mv -- "$work" "$out"
    fi
}

main() {
    read_words "$@"
    netlist=${words[0]} top=${words[1]} out=${words[2]}
    while [ "$out" != / ] && [ "${out%/}" != "$out" ]; do out=${out%/}; done
    [[ $top =~ ^[A-Za-z_][A-Za-z0-9_]*$ ]] || stop 2 "TOP is the name of a module, in letters, digits and _, and not '$top'"
    need_programs
    need_file "$netlist"
    need_file "$lef"
    [ ! -e "$out" ] || [ -d "$out" ] || stop 2 "$out is there, and isn't a folder"
    netlist=$(readlink -f -- "$netlist")
    mkdir -p -- "$(dirname -- "$out")" || stop 2 "no folder can be made at $out"
    work=$(mktemp -d -- "$out.part.XXXXXX") || stop 2 "no folder can be made at $out"
    trap 'rm -rf -- "$work"' EXIT
    trap 'exit 130' INT
    trap 'exit 143' TERM HUP
    case $netlist in
        *.json) ;;
        *)
            need_file "$liberty"
            step "yosys" map
            ;;
    esac
    step "design" make_design
    step "proud" place
    step "picture" draw
    step "DEF" write_def
    deliver || stop 2 "not everything could be moved to $out"
    say "all is in $out"
    python3 "$here/compare.py" "$out/$top.aux" "$out/$top.proud.pl"
}

main "$@"
