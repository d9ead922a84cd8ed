# class_file.awk: reads a class file and writes its type sheet, its name table and its expected type, as lines that
# begin with `sheet`, `names` or `expected` and have bytes in octal notation. What a class file has is said in
# scripts/class_file. The first fault is told with its line, and the status is then 1.

# Words of the file: tokens one behind the other, each with its line.
{
    text = $0
    while (skipped() && text != "") token_of_text()
}

END {
    if (faulty) exit 1
    ended = 1
    types_declared()
    while (at < tokens) declaration()
    if (!expected_line) { at = tokens; fault("no `expect` tells the type that is matched") }
    within(types, 256, "types"); within(variants, 512, "variants"); within(words, 2048, "fields and constants")
    within(bytes, 16384, "bytes of constants and discriminants"); within(rows, 1024, "names"); within(letters, 16384, "bytes of names")
    write_sheet(); write_names(); begin("expected"); word(expected); flush()
}

function fault(said) {
    print FILENAME ":" (ended && tokens ? line[at < tokens ? at : tokens - 1] : FNR ? FNR : 1) ": " said | "cat 1>&2"
    close("cat 1>&2")
    faulty = 1
    exit 1
}

function within(count, most, what) { if (count > most) fault("more than " most " " what) }

# Whitespace and comments at the front are gone; attributes are told, since what they say would be lost.
function skipped() {
    sub(/^[ \t\r\f\v]+/, "", text)
    if (text ~ /^#\[/) fault("attributes are not read; `copy` before `struct`, `enum` or `union` is Rust's derived Copy")
    if (text ~ /^#/ || text ~ /^\/\//) text = ""
    return 1
}

function token_of_text() {
    if (match(text, /^(r#)?[A-Za-z_][A-Za-z0-9_]*/) || match(text, /^[0-9][0-9A-Za-z_]*/) ||
        match(text, /^'(\\u[{][^}']*[}]|\\.[^'\\]*|[^'\\]+)'/) || match(text, /^::/) || match(text, /^[][(){},;:=&*-]/)) {
        token[tokens] = substr(text, 1, RLENGTH)
        line[tokens++] = FNR
        text = substr(text, RLENGTH + 1)
    } else {
        match(text, /^.[\200-\277]*/)
        fault("no word begins with `" substr(text, 1, RLENGTH) "`")
    }
}

# What stands at the front, and one more step.
function here() { return at < tokens ? token[at] : "the end" }

function took(own) { if (at < tokens && token[at] == own) { at++; return 1 } return 0 }

function want(own) { if (!took(own)) fault("`" own "` is due, and not `" here() "`") }

function is_name(own) {
    if (own ~ /^r#/) return own !~ /^r#(_|crate|self|Self|super)$/
    return own ~ /^[A-Za-z_]/ && own != "_" && index(keywords, " " own " ") == 0
}

# A name, without `r#`.
function name_here(what,   found) {
    found = here()
    if (at >= tokens || !is_name(found)) fault("the name of " what " is due, and not `" found "`")
    at++
    sub(/^r#/, "", found)
    return found
}

# All structs, enums and unions have their numbers first, in the file's order.
function types_declared(   i, depth, sort, copied, called) {
    for (i = 0; i < tokens; i++) {
        sort = token[i] == "struct" ? 0 : token[i] == "enum" ? 1 : token[i] == "union" ? 2 : -1
        if (depth == 0 && sort >= 0 && i + 1 < tokens && is_name(token[i + 1])) {
            at = i + 1
            copied = i > 0 && token[i - 1] == "copy"
            called = name_here("a type")
            if (called in number_of) fault("`" called "` is a type already")
            number_of[called] = types
            is_own[called] = 1
            type_row(6, 0, 0, sort, copied)
        }
        depth += token[i] ~ /^[[({]$/ ? 1 : token[i] ~ /^[])}]$/ ? -1 : 0
    }
    at = 0
}

function type_row(kind, a, b, c, copied) {
    type_kind[types] = kind; type_a[types] = a; type_b[types] = b; type_c[types] = c; type_copy[types] = copied
    return types++
}

# The number of a type that may be there already.
function type_of(kind, a, b, copied,   key) {
    key = kind " " a " " b " " copied
    if (!(key in number_of)) number_of[key] = type_row(kind, a, b, 0, copied)
    return number_of[key]
}

function declaration() {
    if (took(";")) return
    if (took("const")) constant()
    else if (took("use")) shorter_names()
    else if (took("expect")) expectation()
    else {
        took("copy")
        if (took("enum")) enum()
        else if (took("struct")) single(0)
        else if (took("union")) single(1)
        else fault("`enum`, `struct`, `union`, `const`, `use` or `expect` is due, and not `" here() "`")
    }
}

function enum(   own, t, first) {
    own = name_here("an enum"); t = number_of[own]; first = variants
    first_of[own] = first
    want("{")
    while (!took("}")) {
        variant(own "::" name_here("a variant"), t, variants - first)
        if (here() != "}") want(",")
    }
    if (variants == first || variants - first > 64) { at--; fault("`" own "` has " (variants - first) " variants, and an enum has 1 to 64") }
    count_of[own] = variants - first
    type_a[t] = first; type_b[t] = variants - first
}

function single(is_union,   own, t) {
    own = name_here(is_union ? "a union" : "a struct"); t = number_of[own]
    if (is_union && here() != "{") fault("`{` is due behind a union's name, and not `" here() "`")
    type_a[t] = variants; type_b[t] = 1
    variant(own, t, 0)
}

# A variant's fields, in brackets or braces or none; what is already read is its whole name.
function variant(own, t, discriminant,   list, count, v, i, field, seen) {
    v = variants++; count = 0
    variant_name[v] = own
    named(1, v, 0, own)
    if (took("(")) {
        while (!took(")")) {
            named_field(count, v, count "")
            list[count++] = kept(type_here(), t)
            if (here() != ")") want(",")
        }
    } else if (took("{")) {
        while (!took("}")) {
            field = name_here("a field")
            if (field in seen) fault("`" own "` has a field `" field "` already")
            seen[field] = 1
            named_field(count, v, field)
            want(":")
            list[count++] = kept(type_here(), t)
            if (here() != "}") want(",")
        }
    }
    variant_first[v] = count ? words : 0; variant_count[v] = count + 0; variant_data[v] = bytes
    for (i = 0; i < count; i++) list_word[words++] = list[i]
    data[bytes] = discriminant
    for (i = 1; i < 16; i++) data[bytes + i] = 0
    bytes += 16
}

# A field's type; what is `copy` has only fields that are.
function kept(field_type, t) {
    if (type_copy[t] && !type_copy[field_type]) { at--; fault("a field of a `copy` type is not copied itself") }
    return field_type
}

function type_here(   t, n) {
    if (took("&")) {
        n = !took("mut")
        return type_of(7, type_here(), 0, n)
    }
    if (took("(")) return tuple_here()
    if (took("[")) {
        t = type_here()
        n = -1
        if (took(";")) n = length_here()
        want("]")
        return n < 0 ? type_of(9, t, 0, 0) : type_of(8, t, n, type_copy[t])
    }
    return plain_type()
}

function tuple_here(   list, count, i, key, copied, comma) {
    copied = 1; comma = 1
    while (!took(")")) {
        list[count++] = type_here()
        comma = took(",")
        if (!comma && here() != ")") want(",")
    }
    if (count == 1 && !comma) return list[0]
    key = "tuple"
    for (i = 0; i < count; i++) { key = key " " list[i]; copied = copied && type_copy[list[i]] }
    if (!(key in number_of)) {
        number_of[key] = type_row(5, count ? words : 0, count + 0, 0, copied)
        for (i = 0; i < count; i++) list_word[words++] = list[i]
    }
    return number_of[key]
}

function length_here() {
    if (here() !~ /^[0-9][0-9_]*$/) fault("an array's length is due, and not `" here() "`")
    number_bytes(token[at], 2, 0, 0)
    if (value[0] == 255 && value[1] == 255) fault("an array's length is at most 65534")
    at++
    return value[0] + 256 * value[1]
}

function plain_type(   own) {
    own = here()
    if (own in size_of) { at++; return type_of(1, size_of[own], own ~ /^i/, 1) }
    if (own == "bool" || own == "char") { at++; return type_of(own == "bool" ? 2 : 3, 0, 0, 1) }
    if (own == "str") { at++; return type_of(4, 0, 0, 0) }
    own = name_here("a type")
    if (own in is_own) return number_of[own]
    at--
    fault("`" own "` is no type here: integers are u8 to u128 and i8 to i128, and the file's own types have to be in it")
}

function constant(   own, t, negative, i, size) {
    own = name_here("a constant")
    while (took("::")) own = own "::" name_here("a constant")
    want(":")
    t = type_here()
    if (type_kind[t] > 3) { at--; fault("a constant is an integer, a bool or a char") }
    want("=")
    negative = took("-")
    size = constant_bytes(t, negative)
    at++
    named(3, words, 0, own)
    list_word[words++] = 8; list_word[words++] = bytes; list_word[words++] = size
    for (i = 0; i < size; i++) data[bytes++] = value[i]
}

# The constant at the front as bytes in `value`; how many.
function constant_bytes(t, negative,   own) {
    own = here()
    if (type_kind[t] == 1) {
        if (own !~ /^[0-9][0-9_]*$/) fault("an integer is due, and not `" own "`")
        number_bytes(own, type_a[t], type_b[t], negative)
        return type_a[t]
    }
    if (negative) fault("only an integer has a minus")
    if (type_kind[t] == 2) {
        if (own != "true" && own != "false") fault("`true` or `false` is due, and not `" own "`")
        value[0] = own == "true"
        return 1
    }
    if (own !~ /^'/) fault("a char is due, and not `" own "`")
    char_bytes(scalar(substr(own, 2, length(own) - 2)))
    return 4
}

# Decimal digits as little-endian bytes of a size, in range of their type.
function number_bytes(digits, size, signed, negative,   i, k, carry, over, top) {
    gsub(/_/, "", digits)
    for (i = 0; i < 17; i++) value[i] = 0
    for (k = 1; k <= length(digits); k++) {
        carry = substr(digits, k, 1)
        for (i = 0; i < 17; i++) { carry += value[i] * 10; value[i] = carry % 256; carry = int(carry / 256) }
        over = over || value[16] || carry
    }
    for (i = size; i < 17; i++) over = over || value[i]
    top = value[size - 1] >= 128
    for (i = 0; i < size - 1; i++) if (negative && value[size - 1] == 128 && value[i]) over = 1
    over = over || signed && top && !(negative && value[size - 1] == 128) || negative && !signed
    if (over) fault("`" (negative ? "-" : "") digits "` is no value of its type")
    carry = 1
    for (i = 0; negative && i < size; i++) { carry += 255 - value[i]; value[i] = carry % 256; carry = int(carry / 256) }
}

function char_bytes(code,   i) {
    for (i = 0; i < 4; i++) { value[i] = code % 256; code = int(code / 256) }
}

# The scalar value between a char's quotes.
function scalar(own,   code, lead) {
    code = -1
    if (own in escaped) code = escaped[own]
    else if (own ~ /^\\x[0-7][0-9a-fA-F]$/) code = hexadecimal(substr(own, 3))
    else if (own ~ /^\\u[{][0-9a-fA-F][0-9a-fA-F_]*[}]$/) code = hexadecimal(substr(own, 4, length(own) - 4))
    else if (own !~ /^\\/) code = decoded(own)
    if (code < 0 || code > 1114111 || code >= 55296 && code <= 57343) fault("`'" own "'` is no char")
    return code
}

function hexadecimal(digits,   k, code) {
    gsub(/_/, "", digits)
    for (k = 1; k <= length(digits) && code < 1114112; k++) code = code * 16 + index("0123456789abcdef", tolower(substr(digits, k, 1))) - 1
    return code
}

# The one UTF-8 scalar that a string is, or -1.
function decoded(own,   lead, size, code, k, next_one) {
    lead = ordinal[substr(own, 1, 1)]
    size = lead < 128 ? 1 : lead < 194 ? 0 : lead < 224 ? 2 : lead < 240 ? 3 : lead < 245 ? 4 : 0
    if (size == 0 || length(own) != size) return -1
    code = size == 1 ? lead : size == 2 ? lead - 192 : size == 3 ? lead - 224 : lead - 240
    for (k = 2; k <= size; k++) {
        next_one = ordinal[substr(own, k, 1)]
        if (next_one < 128 || next_one > 191) return -1
        code = code * 64 + next_one - 128
    }
    return code < 2048 && size == 3 || code < 65536 && size == 4 ? -1 : code
}

# `use Enum::*` and `use Enum::Variant`: variants by their own names.
function shorter_names(   own, only, v, found) {
    own = name_here("an enum")
    if (!(own in first_of)) { at--; fault("`" own "` is no enum that stands above") }
    want("::")
    if (!took("*")) only = name_here("a variant")
    for (v = first_of[own]; v < first_of[own] + count_of[own]; v++) {
        if (only != "" && variant_name[v] != own "::" only) continue
        named(1, v, 0, substr(variant_name[v], length(own) + 3))
        found = 1
    }
    if (!found) { at--; fault("`" own "` has no variant `" only "`") }
}

function expectation() {
    if (expected_line) fault("line " expected_line " has an `expect` already")
    expected_line = line[at - 1]
    expected = type_here()
}

# A row of the name table. Of names alike the first would serve, so that a second one is told.
function named(kind, number, of, own) {
    if (own in name_line) { at--; fault("`" own "` is a name already, of line " name_line[own]) }
    name_line[own] = line[at - 1]
    name_row(kind, number, of, own)
}

function named_field(number, v, own) { name_row(2, number, v, own) }

function name_row(kind, number, of, own) {
    row_words[rows++] = kind " " number " " of " " letters " " length(own)
    letters += length(own)
    all_names = all_names own
}

# Bytes are written in octal, some to a line.
function begin(part) { flush(); writing = part }

function byte(b) {
    octal = octal sprintf("\\%03o", b)
    if (++in_octal == 32) flush()
}

function flush() {
    if (in_octal) print writing " " octal
    octal = ""; in_octal = 0
}

function word(w) { byte(int(w / 256)); byte(w % 256) }

function frame(size) { word(int((size + 1) / 65536)); word((size + 1) % 65536); byte(1) }

function write_sheet(   i) {
    begin("sheet")
    frame(12 + 10 * types + 6 * variants + 2 * words + bytes)
    word(types); word(variants); word(0); word(0); word(words); word(bytes)
    for (i = 0; i < types; i++) { word(type_kind[i]); word(type_a[i]); word(type_b[i]); word(type_c[i]); word(type_copy[i]) }
    for (i = 0; i < variants; i++) { word(variant_first[i]); word(variant_count[i]); word(variant_data[i]) }
    for (i = 0; i < words; i++) word(list_word[i])
    for (i = 0; i < bytes; i++) byte(data[i])
}

function write_names(   i, k, own) {
    begin("names")
    frame(4 + 10 * rows + letters)
    word(rows); word(letters)
    for (i = 0; i < rows; i++) {
        split(row_words[i], own, " ")
        for (k = 1; k <= 5; k++) word(own[k])
    }
    for (i = 1; i <= letters; i++) byte(ordinal[substr(all_names, i, 1)])
}

BEGIN {
    tokens = 0; at = 0; types = 0; variants = 0; words = 0; bytes = 0; rows = 0; letters = 0
    for (i = 1; i < 256; i++) ordinal[sprintf("%c", i)] = i
    for (i = 1; i <= 16; i *= 2) { size_of["u" 8 * i] = i; size_of["i" 8 * i] = i }
    escaped["\\n"] = 10; escaped["\\r"] = 13; escaped["\\t"] = 9; escaped["\\\\"] = 92; escaped["\\0"] = 0; escaped["\\'"] = 39; escaped["\\\""] = 34
    keywords = " as async await break const continue crate dyn else enum extern false fn for if impl in let loop match mod move mut pub ref return self Self"
    keywords = keywords " static struct super trait true type unsafe use where while abstract become box do final macro override priv try typeof unsized"
    keywords = keywords " virtual yield "
}
