# Gives what the recorder has of the library of C++ names of its own: NAME.asancol for each function and each table of
# virtual functions. An object that asks for one of these gets it from here or is not linked, whatever else is linked
# and in which order. Each has its old name too, as a weak one, for objects that no wrapper has compiled.
#
# usage: awk -f checked_names.awk ONE.s .. pass=2 ONE.s ..      leaves ONE.named.s ..
#
# What a process may have only once keeps its name: the identities of types, and variables.

function is_once(name)
{
    return name ~ /^_Z(TI|TS|GV)/ || name in is_unique
}

# The line with the names that are known, each followed by the suffix. So has what leads to what the unwinder looks up:
# other objects have it under its name, where a tool may have made it local.
function renamed(line,    done, name)
{
    done = ""
    while (match(line, /(DW\.ref\._|_Z)[A-Za-z0-9_]+/)) {
        name = substr(line, RSTART, RLENGTH)
        done = done substr(line, 1, RSTART + RLENGTH - 1)
        line = substr(line, RSTART + RLENGTH)
        if (name in is_known || name ~ /^DW/ || (line ~ /^,comdat/ && !is_once(name)))
            done = done ".asancol"
    }
    return done line
}

# A group of sections that is kept once has the name of a destructor that is no function, and others.
{ is_text = $1 == ".string" || $1 == ".ascii" || $1 == ".asciz" }

pass != 2 && $1 == ".weak" { is_weak[$2] }
pass != 2 && $1 == ".type" && /gnu_unique_object/ { sub(/,.*/, "", $2); is_unique[$2] }
pass != 2 && /^_Z[A-Za-z0-9_]+:/ { sub(/:.*/, ""); is_defined[$0] }
pass != 2 && $1 == ".set" { sub(/,.*/, "", $2); is_defined[$2] }
pass != 2 { next }

!is_begun {
    is_begun = 1
    for (name in is_weak)
        if (name in is_defined && !is_once(name))
            is_known[name]
}

FNR == 1 {
    out = FILENAME
    sub(/\.s$/, ".named.s", out)
}

{ print is_text ? $0 : renamed($0) > out }
$1 == ".weak" && $2 in is_known {
    printf "\t.hidden %s.asancol\n\t.weak %s\n\t.set %s, %s.asancol\n", $2, $2, $2, $2 > out
}
