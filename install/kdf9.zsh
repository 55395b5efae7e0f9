#compdef kdf9
# Completes the commands, the tools and the options of kdf9, and jobs, slots, statements and folders. Written by tools/manual.
_kdf9_slots() {
    local -a slots
    [[ ! -f $words[2] ]] || slots=(${(f)"$(sed -n 's/^SLOT \([0-3]\)$/\1/p' $words[2])"})
    (( $#slots )) || slots=(0 1 2 3)
    compadd -a slots
}

_kdf9_labels() {
    local slot= word=$words[3]
    [[ $word != [0-3] ]] || slot=$word
    [[ ! -f $words[2] ]] || compadd -- ${(f)"$(awk -v "slot=$slot" '
    /^SLOT / { n = $2 }
    d && /^ENDDECK$/ { exit }
    d { t = t $0 }
    /^DECK$/ && (slot == "" || n == slot) { d = 1 }
    END {
        gsub(/\([^)]*\)/, "", t); gsub(/ /, "", t); m = split(t, s, ";")
        for (i = 1; i <= m; i++)
            if (s[i] ~ /^PROGRAM/) o = 1
            else if (s[i] ~ /^P[0-9]+(V[0-9]+)?$/) { p = s[i]; sub(/V.*/, "", p); print p }
            else if (o && s[i] ~ /^[0-9]+$/) print s[i] p
    }' $words[2])"}
}

_kdf9() {
    local curcontext=$curcontext state line
    local -a names
    names=(
        'run:Runs a job under Director and writes its report.'
        'alone:Runs the program of slot K by itself and writes its section of the report.'
        'asm:Assembles the deck of slot K and lists its words.'
        'make:Makes a job of four slots from the number N, runs it, and writes a summary.'
        'save:Runs a job and puts the run away: it writes a snapshot.'
        'resume:Goes on from a snapshot with further lines of the schedule, and writes the report of the whole run.'
        'check:Says whether a report has the journal of its job, and where it first goes wrong.'
        'watch:Runs a job, and says when the program of slot K comes to word W.'
        'explain:Runs a job, passes on the output and the status, and says on standard error what is wrong, where and why.'
        'steps:Writes each order of a program as it is obeyed, with its statement and what it changed; or, with --at, each time that the program comes to a statement.'
        'listing:Writes the image of a deck next to its text, with the names of its words.'
        'schedule:Writes a job again with a schedule in which each transfer ends a fixed number of calls after it began, or by its length.'
        'same:Says of each program of a job whether it comes to the same alone, or in another job.'
        'explore:Finds what can come of a job over every schedule: results, deadlocks, and who can starve, each with a job that shows it.'
        'stats:Tells how many calls the programs and devices of a run had for what; of several jobs side by side.'
        'study:Runs a job with all combinations of some values, and keeps a row of measures for each run.'
        'mark:Marks what a class handed in for the exercises of a course, tries a course itself, or writes what students get.'
        'quiz:Writes a question of homework that a seed makes, and its answer, which is that of the machine.'
        'picture:Draws the journal of a report, as SVG or, with --text, for a terminal.'
        'json:Writes a report as JSON.'
        'report:Writes the report that a JSON text is.'
        'page:Writes the machine, an editor and the examples as one page for a browser; with a course, also its exercises.'
        'replay:Writes the same page with a job in it, which opens at the run of that job.'
        'proofs:Writes what is proved as one page for a browser: the theorem, its definitions and all contracts, with each word a link to what it means.'
        'lsp:Serves editors: faults as they are typed, help, names and form of decks and jobs; or, with --faults, writes the faults of files.'
        'dap:Serves editors that debug a job: breakpoints, steps forward and back, watched words.'
        'lib:Writes the machine as a library for programs in C, Python and JavaScript, and says how to use it.'
        'clean:Gives back the disk that only makes the next proof shorter; the program and the page stay.'
        'package:Makes packages of the program, the tools and the documents, as a .tar.gz and a .deb.'
        '--help:Lists the commands and the tools; after the name of one, it says more of that.'
        '--version:Says the version, the commit, the kit, and whether this program was proved on this machine.'
        '--proved:Before a command: waits until the program is proved and built, where something else would answer first; by itself it says --version then.'
    )
    _arguments -C '1:command:->name' '*::argument:->argument' && return
    case $state in
        name) _describe 'command' names ;;
        argument)
            case $words[1] in
                run) _arguments '--help[says how it is used, and ends]' ;;
                alone) _arguments '1:slot:_kdf9_slots' '--help[says how it is used, and ends]' ;;
                asm) _arguments '1:slot:_kdf9_slots' '--help[says how it is used, and ends]' ;;
                make) _arguments '1:: ' '--help[says how it is used, and ends]' ;;
                save) _arguments '--help[says how it is used, and ends]' ;;
                resume) _arguments '--help[says how it is used, and ends]' ;;
                check) _arguments '--help[says how it is used, and ends]' ;;
                watch) _arguments '1:slot:_kdf9_slots' '2:: ' '--help[says how it is used, and ends]' ;;
                explain) _arguments '1:job:_files -g "*.job"' '2:word:(run resume check)' '--help[says this, and ends]' '--strict[ends with status 1 if a program failed or can’t go on, or if a report isn’t that of its job]' ;;
                steps) _arguments '1:job:_files -g "*.job"' '2:slot:_kdf9_slots' '3:: ' '4:: ' '--help[says this, and ends]' '--json[writes JSON, an object for each order, time or stretch between]' '--run[shows the program as it ran under Director, and not by itself]' '--at[shows each time that the program came to this, a reference such as 1 or 3P2, a part such as P2, or a word and a syllable such as 12/3]:STATEMENT:_kdf9_labels' '--watch[shows this word each time, by its name in the deck or as En; for more words, it is given more than once]:WORD: ' ;;
                listing) _arguments '1:job:_files -g "*.job"' '2:slot:_kdf9_slots' '--help[says this, and ends]' '--json[writes JSON, the statements with their images, and the names of the words]' ;;
                schedule) _arguments '1:job:_files -g "*.job"' '2:: ' '--help[says this, and ends]' '--after[each transfer ends N steps after it began; 20 if it is left out]:N: ' '--every[a step is N calls, after which one word of the transfer moves; if it is left out, a step is a call]:N: ' '--speed[each transfer of this device ends A calls after it began, and B more for each word of its area; it can be given for several devices]:DEVICE=A+B: ' '--speeds[a speed for each device by its kind, kdf9 is what the KDF9’s devices did, at 6 microseconds an order]:NAME: ' ;;
                same) _arguments '1:job:_files -g "*.job"' '2:job:_files -g "*.job"' '--help[says this, and ends]' '--json[writes JSON, of each program what is said, and whether that is as it has to be]' ;;
                explore) _arguments '1:job:_files -g "*.job"' '--help[says this, and ends]' '--calls[the calls of a schedule; 60 if it is left out]:T: ' '--runs[the most runs of a search; 2000 if it is left out]:N: ' '--swap[priorities may be exchanged at any moment]' '--mode[naive runs each schedule by itself, to be compared with]' '--out[writes a job for each outcome to this folder, which has to be new or empty]:FOLDER: ' ;;
                stats) _arguments '1:job:_files -g "*.job"' '2:job:_files -g "*.job"' '--help[says this, and ends]' '--json[writes JSON]' '--csv[writes CSV, with a line for each measure]' ;;
                study) _arguments '1:: ' '--help[says this, and ends]' '--out[keeps the rows; it has to be new, or to have rows of the same plan. Without it the rows are only written]:FOLDER: ' '--plot[draws the plots of the plan into the folder, by matplotlib]' '--part[does only each N-th run, from the I-th on, for one of several machines]:I/N: ' '--join[makes no run, but takes the rows of the parts in this folder; it can be given for several folders]:FOLDER: ' '--dask[makes the runs on the workers of the scheduler of Dask at this address]:ADDRESS: ' '--job[makes no study, but writes the job of run N]:N: ' ;;
                mark) _arguments '1:: ' '2:: ' '--help[says this, and ends]' '--csv[writes the table as CSV]' '--json[writes JSON, with all that is known of each hand-in]' '--html[writes a page for the wall, by numbers]' '--try[tries the course itself, its solutions and its wrong ones]' '--hand-out[writes what students get, the exercises without their solutions, and the starting jobs]:FOLDER: ' '--seeds[with --try, each solution is also run under the schedules of so many seeds]:N: ' ;;
                quiz) _arguments '1:word:(nest held idle deadlock journal)' '--help[says this, and ends]' '--seed[the seed; 1 if it is left out]:N: ' '--answers[writes the answer too, and why it is so]' '--json[writes JSON in place of Markdown]' '--html[writes a page]' ;;
                picture) _arguments '--help[says this, and ends]' '--text[draws it in characters, for a terminal]' ;;
                json) _arguments '--help[says this, and ends]' ;;
                report) _arguments '--help[says this, and ends]' ;;
                page) _arguments '--help[says this, and ends]' '--course[puts a course into the page, a folder, or the name of one in courses/ (docs/COURSE.md)]:COURSE: ' ;;
                replay) _arguments '1:job:_files -g "*.job"' '--help[says this, and ends]' ;;
                proofs) _arguments '--help[says this, and ends]' ;;
                lsp) _arguments '--help[says this, and ends]' '--faults[writes the faults of these jobs and decks, and serves nobody; - is standard input]:FILE: ' ;;
                dap) _arguments '--help[says this, and ends]' ;;
                lib) _arguments '1:folder:_files -/' '--help[says this, and ends]' ;;
                clean) _arguments '--help[says this, and ends]' '--json[writes JSON, the folders with their bytes, and what is kept]' '--show[only says what would be given back]' ;;
                package) _arguments '1:folder:_files -/' '--help[says this, and ends]' ;;
            esac ;;
    esac
}

_kdf9 "$@"
