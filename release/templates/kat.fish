# SPDX-License-Identifier: MIT OR Apache-2.0
# Completions of kat for fish. release/generate.py writes this file from release/templates/kat.fish and the table of commands.

# What the argument that is written is: a file with this suffix, any file, a program of the file, or an option.
function __kat_kind
    set -l words (commandline -opc)
    test (count $words) -ge 2; or return
    switch "$words[2]:"(math (count $words) - 1)
@KINDS@
    end
end

function __kat_is
    contains -- (__kat_kind; or echo none) $argv
end

# The programs that a problem file names.
function __kat_programs
    set -l words (commandline -opc)
    set -l file (string replace -r '^~/' "$HOME/" -- (string unescape -- $words[3]))
    cat $file 2>/dev/null | @PROGRAMS@
end

complete -c kat -f
@DESCRIPTIONS@
for suffix in kat gkat flow
    complete -c kat -n "__kat_is $suffix" -k -a "(__fish_complete_suffix .$suffix)"
end
complete -c kat -n '__kat_is file' -F
complete -c kat -n '__kat_is program' -a '(__kat_programs)'
complete -c kat -n '__kat_is --json' -a --json
complete -c kat -n '__kat_is --turns' -a --turns
