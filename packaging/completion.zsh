#compdef rvtest rvfleet
# What zsh offers behind `rvtest` and `rvfleet`: their commands, the options of each, files, and the names of a list's jobs.

# The names of the jobs of the first file on the line.
_rvfleet_jobs() {
    local each
    local -a names
    for each in ${(Q)words[2,-1]}; do
        if [[ -f $each ]]; then
            names=(${(f)"$(_call_program jobs ${(q)service} list ${(q)each} 2>/dev/null)"})
            break
        fi
    done
    compadd -a names
}

_rvfleet_behind_rvtest() {
    local -a commands=(
        'run:Run the jobs of a list and show each failure'
        'list:List the jobs that a run would execute, one per line'
        'explain:Run one job and show how it ended and how it got there'
        'console:Run one job and write its console output to standard output'
        'gdb:Debug the run of one job in gdb, forwards and backwards'
        'check:Report everything that is wrong with a list and its files, without running anything'
        'accept:Run jobs and update their expectations to the actual results'
        'merge:Merge the parts of one run into the report of the whole list'
        'diff:Show which jobs differ between two reports'
        'show:Show the failures in a report'
        'counts:Add up tables of counts written by run --counts'
        'cover:Run jobs and show how much of their images was executed'
        'profile:Run jobs and show in which functions they spent their steps'
        'help:Print help for a command, or describe the keys of a job list'
    )
    if (( CURRENT == 2 )); then
        _describe command commands
        return
    fi
    # _arguments takes the command for the program.
    shift words
    (( CURRENT-- ))
    case $words[1] in
        run) _arguments \
                '*--only[Select this job (repeatable)]:NAME:_rvfleet_jobs' \
                '--match[Select jobs whose name matches this regex]:REGEX: ' \
                '--exclude[Leave out jobs whose name matches this regex]:REGEX: ' \
                '--failed[Select the jobs that failed in this report]:REPORT:_files' \
                '--partial[Accept a truncated report and use its complete rows]' \
                '--shard[Run the Kth of N shards of the list]:K/N: ' \
                '--stamp[Stamp the part with this text; merge accepts only parts with equal stamps \[default\: a digest of the list\]]:TEXT: ' \
                ''{-j,--workers}'[Use at most N threads, from 1 to 64 \[default\: one per processor\]]:N: ' \
                '--group[Jobs that a thread takes at once, from 1 to 4096 \[default\: 1\]]:N: ' \
                '--budget[Override every job'\''s step budget, from 1 to 1000000000]:N: ' \
                '--root[Resolve relative paths in the list against this directory]:DIR:_directories' \
                '--into[Update this report of the whole list with the rows of the run]:FILE:_files' \
                '--report[Write the report to this file, or - for standard output]:FILE:_files' \
                '--junit[Write JUnit XML to this file, or - for standard output]:FILE:_files' \
                '--suite[Set the name of the test suite in JUnit XML]:NAME: ' \
                '--lenient[Count only unmet expectations as failures]' \
                '--counts[Write instruction counts to this file, or - for standard output]:FILE:_files' \
                '--stacks[Also count call stacks; requires --counts]' \
                '--known[Read the jobs that are known to fail from this file, one NAME \[# REASON\] per line]:FILE:_files' \
                '--stop-after[Stop after the Nth failure, from 1 to 4096]:N: ' \
                ''{-v,--verbose}'[Also show the jobs that pass; cannot be used with --quiet]' \
                ''{-q,--quiet}'[Show only the last line; cannot be used with --verbose]' \
                '--last[Show the last N instructions of each failed job, from 0 to 100000]:N: ' \
                '--color[Color the output\: always, never or auto (on a terminal)]:WHEN:(always never auto)' \
                '--help[Print help]' \
                ':LIST:_files' ;;
        list) _arguments \
                '*--only[Select this job (repeatable)]:NAME:_rvfleet_jobs' \
                '--match[Select jobs whose name matches this regex]:REGEX: ' \
                '--exclude[Leave out jobs whose name matches this regex]:REGEX: ' \
                '--failed[Select the jobs that failed in this report]:REPORT:_files' \
                '--partial[Accept a truncated report and use its complete rows]' \
                '--lenient[Count only unmet expectations as failures]' \
                '--help[Print help]' \
                ':LIST:_files' ;;
        explain) _arguments \
                '--last[Show the last N instructions of the job, from 0 to 100000 \[default\: 16\]]:N: ' \
                '--budget[Override every job'\''s step budget, from 1 to 1000000000]:N: ' \
                '--root[Resolve relative paths in the list against this directory]:DIR:_directories' \
                '--color[Color the output\: always, never or auto (on a terminal)]:WHEN:(always never auto)' \
                '--help[Print help]' \
                ':LIST:_files' \
                ':NAME:_rvfleet_jobs' ;;
        console) _arguments \
                '--root[Resolve relative paths in the list against this directory]:DIR:_directories' \
                '--help[Print help]' \
                ':LIST:_files' \
                ':NAME:_rvfleet_jobs' ;;
        gdb) _arguments \
                '--root[Resolve relative paths in the list against this directory]:DIR:_directories' \
                '--memory[Use at most N megabytes, from 64 to 4096 \[default\: 256\]]:N: ' \
                '--help[Print help]' \
                ':LIST:_files' \
                ':NAME:_rvfleet_jobs' ;;
        check) _arguments \
                '--root[Resolve relative paths in the list against this directory]:DIR:_directories' \
                '--help[Print help]' \
                ':LIST:_files' ;;
        accept) _arguments \
                '*--only[Select this job (repeatable)]:NAME:_rvfleet_jobs' \
                '--match[Select jobs whose name matches this regex]:REGEX: ' \
                '--exclude[Leave out jobs whose name matches this regex]:REGEX: ' \
                '--failed[Select the jobs that failed in this report]:REPORT:_files' \
                '--partial[Accept a truncated report and use its complete rows]' \
                '--ends[Also accept a different exit code or kind of fault]' \
                '--check[Show what would change without writing anything]' \
                '--outside[Also write golden files outside the list'\''s directory (or the --root directory)]' \
                ''{-j,--workers}'[Use at most N threads, from 1 to 64 \[default\: one per processor\]]:N: ' \
                '--group[Jobs that a thread takes at once, from 1 to 4096 \[default\: 1\]]:N: ' \
                '--root[Resolve relative paths in the list against this directory]:DIR:_directories' \
                '--help[Print help]' \
                ':LIST:_files' ;;
        merge) _arguments \
                '--report[Write the report to this file, or - for standard output]:FILE:_files' \
                '--junit[Write JUnit XML to this file, or - for standard output]:FILE:_files' \
                '--suite[Set the name of the test suite in JUnit XML]:NAME: ' \
                '--lenient[Count only unmet expectations as failures]' \
                '--help[Print help]' \
                '*:PART:_files' ;;
        diff) _arguments \
                '--partial[Accept a truncated report and use its complete rows]' \
                '--steps[Also compare steps and the addresses of faults]' \
                '--slower[Report jobs that take more than N percent more steps, from 0 to 1000]:N: ' \
                '--color[Color the output\: always, never or auto (on a terminal)]:WHEN:(always never auto)' \
                '--help[Print help]' \
                ':OLD:_files' \
                ':NEW:_files' ;;
        show) _arguments \
                '--partial[Accept a truncated report and use its complete rows]' \
                '--junit[Write JUnit XML to this file, or - for standard output]:FILE:_files' \
                '--suite[Set the name of the test suite in JUnit XML]:NAME: ' \
                '--lenient[Count only unmet expectations as failures]' \
                '--color[Color the output\: always, never or auto (on a terminal)]:WHEN:(always never auto)' \
                '--help[Print help]' \
                ':REPORT:_files' ;;
        counts) _arguments \
                '--out[Write the sum to this file \[default\: standard output\]]:FILE:_files' \
                '--help[Print help]' \
                '*:TABLE:_files' ;;
        cover) _arguments \
                '*--only[Select this job (repeatable)]:NAME:_rvfleet_jobs' \
                '--match[Select jobs whose name matches this regex]:REGEX: ' \
                '--exclude[Leave out jobs whose name matches this regex]:REGEX: ' \
                '--failed[Select the jobs that failed in this report]:REPORT:_files' \
                '--partial[Accept a truncated report and use its complete rows]' \
                '--shard[Run the Kth of N shards of the list]:K/N: ' \
                '--lenient[Count only unmet expectations as failures]' \
                ''{-j,--workers}'[Use at most N threads, from 1 to 64 \[default\: one per processor\]]:N: ' \
                '--group[Jobs that a thread takes at once, from 1 to 4096 \[default\: 1\]]:N: ' \
                '--root[Resolve relative paths in the list against this directory]:DIR:_directories' \
                '--counts[Read counts from this table instead of running jobs]:TABLE:_files' \
                '--csv[Write one CSV row per image]' \
                '--help[Print help]' \
                ':LIST:_files' ;;
        profile) _arguments \
                '*--only[Select this job (repeatable)]:NAME:_rvfleet_jobs' \
                '--match[Select jobs whose name matches this regex]:REGEX: ' \
                '--exclude[Leave out jobs whose name matches this regex]:REGEX: ' \
                '--failed[Select the jobs that failed in this report]:REPORT:_files' \
                '--partial[Accept a truncated report and use its complete rows]' \
                '--shard[Run the Kth of N shards of the list]:K/N: ' \
                '--lenient[Count only unmet expectations as failures]' \
                ''{-j,--workers}'[Use at most N threads, from 1 to 64 \[default\: one per processor\]]:N: ' \
                '--group[Jobs that a thread takes at once, from 1 to 4096 \[default\: 1\]]:N: ' \
                '--root[Resolve relative paths in the list against this directory]:DIR:_directories' \
                '--counts[Read counts from this table instead of running jobs]:TABLE:_files' \
                '--top[Show only the first N functions of each image]:N: ' \
                '--csv[Write one CSV row per function]' \
                '--help[Print help]' \
                ':LIST:_files' \
                ':NAME:_rvfleet_jobs' ;;
        help) _arguments \
                '--help[Print help]' \
                ':TOPIC:(run list explain console gdb check accept merge diff show counts cover profile help keys)' ;;
    esac
}

_rvfleet_behind_rvfleet() {
    local -a commands=(
        'raw:Runs the flat image on standard input, placed at 0x80000000'
        'one:Runs one ELF image, placed at its physical addresses'
        'run:Runs the jobs of a list, and reports one row a job'
    )
    if (( CURRENT == 2 )); then
        _describe command commands
        return
    fi
    # _arguments takes the command for the program.
    shift words
    (( CURRENT-- ))
    case $words[1] in
        raw) _arguments \
                '--budget[Steps at most, from 1 to 1000000000]:N: ' \
                '--help[Print help]' ;;
        one) _arguments \
                '--budget[Steps at most, from 1 to 1000000000]:N: ' \
                '--input-hex[The console'\''s input, as hexadecimal digits]:H: ' \
                '--help[Print help]' \
                ':IMAGE:_files' ;;
        run) _arguments \
                '--workers[Threads, from 1 to 64 \[default\: 1\]]:N: ' \
                '--group[Jobs that a thread takes at once, from 1 to 4096 \[default\: 1\]]:N: ' \
                '--help[Print help]' \
                ':JOBS:_files' ;;
    esac
}

# A file of this name is one function, so the programs' own have other names than it.
_rvfleet_behind_$service
