# Sourced from the repository's root, under 'set -o pipefail', by what proves crates.

# under CRATE: the crates that CRATE stands on and CRATE itself, a line each. The kit's libraries have no line in crates.txt and are not among them.
under() {
    awk -v wanted="$1" '
        { sub(/#.*/, ""); sub(/ staticlib:/, ":") }
        split($0, half, ":") == 2 { gsub(/[ \t]/, "", half[1]); needs[half[1]] = half[2] }
        END {
            todo[count = 1] = wanted
            for (i = 1; i <= count; i++) {
                if (!(todo[i] in needs) || todo[i] in seen) continue
                seen[todo[i]] = 1
                print todo[i]
                n = split(needs[todo[i]], below, " ")
                for (k = 1; k <= n; k++) todo[++count] = below[k]
            }
        }' crates.txt
}

# told: says on standard error, for each crate of rt's output that is proved, in what time. Of a crate that an earlier run proved rt says nothing.
told() {
    local since=$SECONDS line crate=""
    while IFS= read -r line; do
        case $line in
        "crate "*": modules loaded="*)
            crate=${line#crate }
            crate=${crate%%:*}
            ;;
        "logic=proved "*)
            echo "   $crate proved in $((SECONDS - since)) s" >&2
            since=$SECONDS
            ;;
        esac
    done
}

# prove COMMAND CRATE: runs 'rt COMMAND', run or lib, in the crate's folder, on no input, and tells of each crate that it proves on the way. If that
# fails, the end of what rt said follows, and the status is 1.
prove() {
    local log
    log=$(mktemp)
    if ! (cd "crates/$2" && rt "$1") 2>&1 </dev/null | tee "$log" | told; then
        tail -n 20 "$log" >&2
        rm -f "$log"
        return 1
    fi
    rm -f "$log"
}

# newer FILE CRATE ENDS..: whether FILE is missing, or older than a source, whose name ends in one of ENDS, of CRATE or of a crate that it stands on.
newer() {
    local file=$1 crate=$2 end
    local -a names=()
    shift 2
    for end; do names+=(-o -name "*$end"); done
    [ ! -e "$file" ] || [ -n "$(find $(under "$crate" | sed 's|.*|crates/&|') -name out -prune -o \( "${names[@]:1}" \) -newer "$file" -print -quit)" ]
}
