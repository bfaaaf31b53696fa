# Fails where a module, as LLVM prints it, has a line that is not known to mean the same for every target that a library is made for, and prints the first
# such lines. Known are: numbers of 1 to 64 bits and pointers, of which the null one is address 0, memory as bytes whose alignment is said, addresses
# counted in bytes, bytes that are constant and private, and their address stored, the number of an address, two numbers, of 8 and of 8, 32 or 64 bits, or
# of 64 and 64, a pointer being one of 64, that lie beside one another and that a function within gives back at once, LLVM's functions below, and
# functions that cross to C with pointers and numbers of 32 and 64 bits alone: smaller ones are extended by the caller on macOS, and by nobody on Linux. Of
# their arguments eight go in registers; a ninth that lies alone on the stack, or several there of 64 bits, have the same places everywhere, but several
# of 32 bits macOS would pack more closely than Linux.
BEGIN {
    type = "(i1|i8|i16|i32|i64|ptr)"
    value = "(%|-?[0-9]+|true|false|null)"
    pair = "\\{ (i8, i8|i8, i32|i8, i64|i8, ptr|i64, i64|ptr, i64) \\}"
    number = "[a-z]+( nuw| nsw| exact)* " type " " value ", " value
    memory = "(alloca (" type "|\\[[0-9]+ x i8\\])|load (" type "|" pair "), ptr %), align [0-9]+|extractvalue " pair " %, [01]"
    address = "getelementptr( inbounds)?( nuw)? i8, ptr %, i64 " value
    cast = "(trunc|zext|sext)( nuw| nsw| nneg)* " type " " value " to " type "|ptrtoaddr ptr % to i64"
    compared = "icmp [a-z]+ " type " " value ", " value
    called = "call (void|" type "|" pair ") @\\((" type "( align [0-9]+)? " value "(, " type "( align [0-9]+)? " value ")*)?\\)"
    step = "% = (" number "|" memory "|" address "|" cast "|" compared "|" called ")"
    effect = called "|store " type " " value ", ptr %, align [0-9]+|ret void|ret " type " " value "|ret " pair " %|unreachable"
    branch = "br label %|br i1 " value ", label %, label %|switch " type " %, label % \\[|  " type " -?[0-9]+, label %|\\]"
    line = "^  (" step "|" effect "|" branch ")$"
    inner = "^define internal (void|" type "|" pair ") @\\((" type " %(, " type " %)*)?\\) #[0-9]+ \\{$"
    crossing = "^(define|declare) (void|ptr|i32|i64) @\\(((ptr|i32|i64)( %)?(, (ptr|i32|i64)( %)?)*)?\\) #[0-9]+( \\{)?$"
    llvm = "^declare .*@llvm\\.(memmove\\.p0\\.p0\\.i64|memset\\.p0\\.i64|ctlz\\.i(32|64)|cttz\\.i(32|64)|trap)\\("
    about = "^(source_filename|target (datalayout|triple)) = \"[^\"]*\"$|^attributes #[0-9]+ = \\{ [^}]* \\}$|^![a-z0-9.]+ = !\\{.*\\}$"
    bytes = "^@ = private unnamed_addr constant \\[[0-9]+ x i8\\] c\"[^\"]*\", align 1$"
    frame = "^[a-z]+(\\.[0-9]+)?:$|^}$|^$"
}
# Whether the arguments of a function that crosses to C have the same places everywhere.
function placed(all,    count, i, one) {
    gsub(/^[^(]*\(|\).*/, "", all)
    count = split(all, one, ", ")
    for (i = 9; count > 9 && i <= count; i++) if (one[i] ~ /^i32/) return 0
    return 1
}
{
    whole = $0
    if ($0 !~ /^(target|source_filename|attributes|!)/) {
        sub(/;.*/, "")
        sub(/ +$/, "")
    }
    if ($0 ~ about || $0 ~ frame || $0 ~ llvm) next
    gsub(/, ![a-z]+ ![0-9]+/, "")
    if ($0 ~ /^  store ptr @static\.[0-9]+, ptr %[A-Za-z0-9_.]+, align 8$/) next
    gsub(/%[A-Za-z0-9_.]+/, "%")
    gsub(/@("[^"]*"|[A-Za-z0-9_.]+)/, "@")
    if ($0 ~ line || $0 ~ bytes) next
    gsub(/ noundef/, "")
    if ($0 ~ /^define internal /) gsub(/ zeroext/, "")
    if ($0 ~ inner || $0 ~ crossing && placed($0)) next
    print "not known to mean the same for every target: " whole
    if (++odd == 3) exit
}
END { exit odd > 0 }
