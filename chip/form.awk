# awk -f form.awk SIGNATURES MODULE: holds the LLVM module of the boundary, as text, to a form in which it means the same on a 32-bit core
# as on x86-64, for which it was made. Every line must have a form that stands below; whatever is not listed is refused, with its line.
# SIGNATURES has the functions that the header declares, one to a line, as clang lowers them: `i32 @huskerivory_pack(ptr, ptr)`.
#
# What the list leaves out, and why, is in docs/TRUST.md. In short: pointers are half as wide there, so a pointer is never a number and
# a number never a pointer, and no layout with a pointer in it is computed by the compiler; everything else has the same width.

BEGIN {
    if (ARGC != 3) { print "usage: awk -f form.awk SIGNATURES MODULE"; refusals = 1; exit }
    name = "%[A-Za-z0-9_.]+"
    number = "(i1|i8|i16|i32|i64)"
    value = "(" name "|-?[0-9]+|true|false)"
    text = "@static\\.[0-9]+"
    pair = "\\{ ((i8|i16|i32|i64), (i8|i16|i32|i64)|ptr, i64) \\}" # its second part stands at the same byte on both machines
    called = "@(\"[^\"]*\"|[A-Za-z0-9_.]+)"
    passed = "(ptr " name "|" number " " value ")"
    taken = "(ptr|" number ")( noundef)?( zeroext)?( " name ")?"
    aligned = ", align [1248]"
    known = "(, !(range|noundef) ![0-9]+)*"

    width["i8"] = 1; width["i16"] = 2; width["i32"] = 4; width["i64"] = width["ptr"] = 8

    # Instructions, by their first word. Places on the stack are numbers, pointers and bytes of fixed size.
    form["alloca"] = name " = alloca (i8|i16|i32|i64|ptr|\\[[0-9]+ x i8\\])" aligned
    form["load"] = name " = load (i8|i16|i32|i64|ptr|" pair "), ptr " name aligned known
    form["store"] = "store ((i8|i16|i32|i64) " value "|ptr (" name "|" text ")), ptr " name aligned
    form["getelementptr"] = name " = getelementptr (inbounds )?(nuw )?i8, ptr " name ", i64 (" name "|[0-9]+)"
    form["icmp"] = name " = icmp (eq|ne|ult|ule|ugt|uge) " number " " value ", " value
    form["zext"] = form["trunc"] = name " = (zext|trunc) (nuw |nneg )?" number " " value " to " number
    form["add"] = form["sub"] = form["mul"] = form["shl"] = name " = (add|sub|mul|shl) (nuw )?" number " " value ", " value
    form["udiv"] = form["urem"] = form["lshr"] = name " = (udiv|urem|lshr) " number " " value ", " value
    form["and"] = form["or"] = form["xor"] = name " = (and|or|xor) " number " " value ", " value
    form["br"] = "br (label " name "|i1 " value ", label " name ", label " name ")"
    form["switch"] = "switch " number " " name ", label " name " \\["
    form["ret"] = "ret (void|" number " " value "|" pair " " name ")"
    form["extractvalue"] = name " = extractvalue " pair " " name ", [01]"
    form["unreachable"] = "unreachable"
    form["call"] = "(" name " = )?call (void|" number "|" pair ") " called "\\((" passed "(, " passed ")*)?\\)"
    moves = "call void @llvm\\.mem(move|cpy)\\.p0\\.p0\\.i64\\(ptr " name ", ptr " name ", i64 [0-9]+, i1 false\\)"
    absent = name " = icmp eq ptr %a[0-9]+, null"
    heads = "define (internal )?(noundef )?(zeroext )?(void|" number "|" pair ") " called "\\((" taken "(, " taken ")*)?\\) #[0-9]+ \\{"
    crossing = "(void|i32|i64) @huskerivory_[a-z_]+\\(((ptr|i32|i64)(, (ptr|i32|i64))*)?\\)"
    fills = "call void @llvm\\.memset\\.p0\\.i64\\(ptr " name ", i8 " value ", i64 [0-9]+, i1 false\\)"
    traps = "call void @llvm\\.trap\\(\\)"

    because["alloca"] = "a place on the stack is a number, a pointer or bytes of fixed size, aligned to 8 at most"
    because["load"] = "a number, a pointer or a pair is loaded, plainly and with a written alignment"
    because["store"] = "a number, a pointer or a text's place is stored, plainly and with a written alignment"
    because["getelementptr"] = "an address is counted in bytes from a pointer, up"
    because["icmp"] = "numbers are compared, without a sign; of pointers, one that an exported function is lent with null"
    because["call"] = "a function of the module is called by its name, or a move or fill of fixed size"
    because["define"] = "a function takes pointers and numbers"
}

function refuse(why) {
    if (++refusals <= 5) printf "%s:%d: %s: %s\n", FILENAME, FNR, why, $0
}

function whole(text, pattern) { return text ~ ("^" pattern "$") }

# the first word of an instruction, without the name that it defines
function kind_of(line) {
    sub(/^%[^ ]+ = /, "", line)
    sub(/ .*/, "", line)
    return line
}

# the name of the function that a line defines, declares or calls
function callee(line) {
    match(line, called)
    return substr(line, RSTART, RLENGTH)
}

function check_call(line,    f) {
    f = callee(line)
    if (f ~ /^@llvm\./) {
        if (!whole(line, moves) && !whole(line, fills) && !whole(line, traps)) refuse(because["call"])
    } else if (!(f in calls)) {
        calls[f] = FNR
    }
}

# A place on the stack for a pointer has 8 bytes on x86-64 and 4 there. So it is neither moved whole nor lent nor counted on from; pointers are
# loaded from it and stored into it, and that is all. Places for numbers hold no pointers.
function check_places(line, kind, words, count,    i, of_pointers) {
    of_pointers = kind == "load" && words[4] == "ptr" || kind == "store" && words[2] == "ptr"
    for (i = 2; i <= count; i++) {
        if (place[words[i]] == "pointer" && !(of_pointers && i == (kind == "load" ? 6 : 5)))
            refuse("a place of a pointer has another size there, and takes part in loads and stores of pointers alone")
        if (place[words[i]] == "number" && words[kind == "load" ? 4 : 2] ~ /ptr/ && i == (kind == "load" ? 6 : 5)) refuse("a place of a number holds no pointer")
    }
}

# Of bytes at a constant distance from a pointer, a function uses the same 8 for pointers or for numbers, and not for both: half of a pointer's
# are nothing there. The parts of a pair are aligned as they are wide.
function check_bytes(type, at, further,    from, distance, i, byte, use, part) {
    if (split(type, part, /[{:}]/) > 1) {
        check_bytes(part[2], at, 0)
        check_bytes(part[3], at, width[part[2]] > width[part[3]] ? width[part[2]] : width[part[3]])
        return
    }
    from = at in origin ? origin[at] : at
    distance = (at in origin ? steps[at] : 0) + further
    use = type == "ptr" ? "pointer" : "number"
    for (i = 0; i < width[type]; i++) {
        byte = from SUBSEP (distance + i)
        if (byte in used && used[byte] != use) { refuse("bytes of a pointer are taken for a number, or a number for them"); return }
        used[byte] = use
    }
}

# an address: constant distances add up, from any other one begins anew
function count_on(result, from, by) {
    if (by !~ /^[0-9]+$/) return
    origin[result] = from in origin ? origin[from] : from
    steps[result] = (from in origin ? steps[from] : 0) + by
}

# a pair's type as one word: {ptr:i64}
function joined(type) {
    gsub(/ /, "", type)
    sub(/,/, ":", type)
    return type
}

function check_memory(line, kind,    words, count) {
    if (match(line, pair)) line = substr(line, 1, RSTART - 1) joined(substr(line, RSTART, RLENGTH)) substr(line, RSTART + RLENGTH)
    count = split(line, words, /[ ,()]+/)
    if (kind == "alloca") place[words[1]] = words[4] == "ptr" ? "pointer" : words[4] ~ /^i/ ? "number" : "bytes"
    else check_places(line, kind, words, count)
    if (kind == "load") check_bytes(words[4], words[6], 0)
    if (kind == "store") check_bytes(words[2], words[5], 0)
    if (kind == "getelementptr") count_on(words[1], words[count - 2], words[count])
}

# a function begins: nothing is known of its places and addresses
function forget() { split("", place); split("", origin); split("", steps); split("", used) }

function check_instruction(line,    kind) {
    kind = kind_of(line)
    instructions++
    if (!(kind in form)) refuse("an instruction of a kind that is not known here")
    else if (!whole(line, form[kind]) && !(is_exported && whole(line, absent))) refuse(kind in because ? because[kind] : "another form of this instruction")
    else {
        if (kind == "call") check_call(line)
        check_memory(line, kind)
    }
}

# an exported function: its results and parameters, without names, are those of the header
function check_exported(line,    signature) {
    signature = line
    sub(/^define /, "", signature)
    gsub(/ noundef| zeroext| %[A-Za-z0-9_.]+|noundef |zeroext /, "", signature)
    sub(/ #[0-9]+ \{$/, "", signature)
    if (!(signature in declared)) refuse("the header declares no such exported function")
    exported[signature] = 1
}

function check_define(line) {
    if (!whole(line, heads)) refuse(because["define"])
    defined[callee(line)] = 1
    is_exported = line !~ /^define internal /
    if (is_exported) check_exported(line)
}

# attributes say nothing of a layout; the three that are x86's are left out of the other machine's text by chip/build
function check_attributes(line) {
    gsub(/"probe-stack"="inline-asm"|"stack-probe-size"="[0-9]+"|"target-cpu"="x86-64"|memory\([a-z: ]*\)|nounwind|nocallback|nofree|willreturn|cold|noreturn/, "", line)
    if (!whole(line, "attributes #[0-9]+ = \\{ *\\}")) refuse("an attribute that is not known here")
}

# SIGNATURES
FNR == NR {
    if (!whole($0, crossing)) refuse("only pointers, 32-bit and 64-bit numbers cross the boundary")
    declared[$0] = 1
    next
}

# MODULE: what may stand outside functions, then their lines
{ lines++ }
/^$/ || /^;/ { next }
/^source_filename = "[a-z]+"$/ { next }
/^target datalayout = / {
    if ($0 !~ /^target datalayout = "e-m:e-[a-zA-Z0-9:-]*-i64:64-[a-zA-Z0-9:-]*"$/) refuse("little-endian, with 64-bit numbers at multiples of 8")
    next
}
/^target triple = / {
    if ($0 != "target triple = \"x86_64-unknown-linux-gnu\"") refuse("the module is made for x86-64")
    next
}
/^@/ { # a text of the program: bytes that are only read
    if (!whole($0, text " = private unnamed_addr constant \\[[0-9]+ x i8\\] (zeroinitializer|c\"[^\"]*\"), align 1")) refuse("a global is bytes that stay as they are")
    next
}
/^declare / {
    if ($0 !~ /^declare void @llvm\.(mem(move|cpy)\.p0\.p0\.i64|memset\.p0\.i64|trap)\([a-z0-9 ,()]*\) #[0-9]+$/)
        refuse("nothing is called out of the module but moves, fills and traps")
    next
}
/^define / { check_define($0); inside = 1; forget(); next }
/^attributes / { check_attributes($0); next }
/^!llvm\.ident = !\{![0-9]+\}$/ || /^![0-9]+ = !\{(i8 0, i8 2|!"[^"]*")?\}$/ { next }
inside && /^}$/ { inside = 0; next }
inside && /^[a-z]+[0-9.]*:( *; (preds = [%A-Za-z0-9_., ]*|No predecessors!))?$/ { next }
inside && /^    i[0-9]+ -?[0-9]+, label %[A-Za-z0-9_.]+$/ { next }
inside && /^  \]$/ { next }
inside && /^  [%a-z]/ { check_instruction(substr($0, 3)); next }
{ refuse("a line that is not known here") }

END {
    if (ARGC == 3) {
        for (f in calls) if (!(f in defined)) { refusals++; printf "%s:%d: a call out of the module: %s\n", FILENAME, calls[f], f }
        for (s in declared) if (!(s in exported)) { refusals++; print FILENAME ": the header declares what is not exported: " s }
        for (s in exported) count++
        if (!count) { refusals++; print FILENAME ": the module exports nothing" }
        if (refusals > 5) printf "%d refusals in all\n", refusals
        if (!refusals) {
            printf "%d lines of known forms, %d of them instructions; ", lines, instructions
            printf "%d exported functions, as the header declares them\n", count
        }
    }
    exit refusals > 0
}
