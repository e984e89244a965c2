# awk -v layout=LINE -v triple=LINE -f thumb.awk MODULE MODULE: the text of a module that form.awk took, for the Cortex-M33. It is read twice.
# Layout and triple become the given lines, the three attributes that are x86's go, and functions with large places are kept apart.
# Everything else stays as it is.
#
# Kept apart (noinline): clang copies a function that is called once into its caller, and its places on the stack with it, so that an advance with
# one answer would take the room of the arrays that only a long log needs.

function callee(line) {
    match(line, /@("[^"]*"|[A-Za-z0-9_.]+)/)
    return substr(line, RSTART, RLENGTH)
}

FNR == NR {
    if (/^define /) inside = callee($0)
    else if (match($0, / = alloca \[[0-9]+ /) && substr($0, RSTART + 11, RLENGTH - 12) + 0 >= 512) large[inside] = 1
    else if (/^  (%[^ ]+ = )?call / && callee($0) !~ /^@llvm\./) calls[inside] = 1
    next
}
/^target datalayout = / { $0 = layout }
/^target triple = / { $0 = triple }
/^attributes / { gsub(/ "probe-stack"="inline-asm"| "stack-probe-size"="[0-9]+"| "target-cpu"="x86-64"/, "") }
/^define internal / && callee($0) in large && callee($0) in calls { sub(/ #[0-9]+ \{$/, " noinline&") }
{ print }
