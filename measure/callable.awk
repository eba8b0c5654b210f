# Makes functions of a Rattle program callable from C, in the program's module as LLVM text.
#
# CALLABLE="crate::f crate::m::g" names them; their symbols become crate__f and crate__m__g, with what PREFIX says before
# them, so that two modules can stand in one program: all other functions are the module's own. What says x86-64 (layout,
# triple, processor) is dropped, so that the module compiles for the processor at hand, and `main` leaves its name to the
# harness. The code stays as it is.
BEGIN {
    n = split(ENVIRON["CALLABLE"], names, " ")
    for (i = 1; i <= n; i++) {
        symbol = names[i]
        gsub(/::/, "__", symbol)
        plain["@\"" names[i] "\""] = "@" ENVIRON["PREFIX"] symbol
    }
}
/^target (datalayout|triple)/ { next }
/^attributes / { gsub(/ *"target-(cpu|features)"="[^"]*"/, "") }
/^define / {
    match($0, /@("[^"]*"|[^( ]*)\(/)
    name = substr($0, RSTART, RLENGTH - 1)
    if (name in plain) {
        sub(/^define internal /, "define ")
        found[name] = 1
    }
    sub(/@main\(/, "@" ENVIRON["PREFIX"] "program_main(")
}
{
    for (name in plain) {
        done = ""
        rest = $0
        while (at = index(rest, name)) {
            done = done substr(rest, 1, at - 1) plain[name]
            rest = substr(rest, at + length(name))
        }
        $0 = done rest
    }
    print
}
END {
    for (name in plain) if (!(name in found)) {
        print "callable.awk: the module has no function " name > "/dev/stderr"
        exit 1
    }
}
