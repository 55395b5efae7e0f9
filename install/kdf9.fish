# Completes the commands, the tools and the options of kdf9, and jobs, slots, statements and folders. Written by tools/manual.
function __kdf9_slots
    set -l words (commandline -opc)
    set -l slots
    test -f "$words[3]"; and set slots (sed -n 's/^SLOT \([0-3]\)$/\1/p' "$words[3]")
    test (count $slots) -gt 0; or set slots 0 1 2 3
    printf '%s\n' $slots
end

function __kdf9_labels
    set -l words (commandline -opc)
    set -l slot
    string match -qr -- '^[0-3]$' "$words[4]"; and set slot $words[4]
    test -f "$words[3]"; and awk -v "slot=$slot" '
    /^SLOT / { n = $2 }
    d && /^ENDDECK$/ { exit }
    d { t = t $0 }
    /^DECK$/ && (slot == "" || n == slot) { d = 1 }
    END {
        gsub(/\([^)]*\)/, "", t); gsub(/ /, "", t); m = split(t, s, ";")
        for (i = 1; i <= m; i++)
            if (s[i] ~ /^PROGRAM/) o = 1
            else if (s[i] ~ /^P[0-9]+(V[0-9]+)?$/) { p = s[i]; sub(/V.*/, "", p); print p }
            else if (o && s[i] ~ /^[0-9]+$/) print s[i] p
    }' "$words[3]"
end

# Whether no name stands there yet, and whether the name that does is this one.
function __kdf9_first
    test (count (commandline -opc)) -eq 1
end

function __kdf9_is
    set -l words (commandline -opc)
    test (count $words) -gt 1; and test "$words[2]" = $argv[1]
end

# Whether it is this name, with so many places filled after it.
function __kdf9_at
    __kdf9_is $argv[1]; or return 1
    set -l places 0
    set -l is_of_option no
    for word in (commandline -opc)[3..-1]
        if test $is_of_option = yes
            set is_of_option no
        else if contains -- $word --at --watch --after --every --speed --speeds --calls --runs --out --part --join --dask --job --hand-out --seeds --seed --course --faults
            set is_of_option yes
        else if not string match -q -- '-?*' $word
            set places (math $places + 1)
        end
    end
    test $places -eq $argv[2]
end

complete -c kdf9 -f
complete -c kdf9 -n __kdf9_first -a run -d 'Runs a job under Director and writes its report.'
complete -c kdf9 -n __kdf9_first -a alone -d 'Runs the program of slot K by itself and writes its section of the report.'
complete -c kdf9 -n __kdf9_first -a asm -d 'Assembles the deck of slot K and lists its words.'
complete -c kdf9 -n __kdf9_first -a make -d 'Makes a job of four slots from the number N, runs it, and writes a summary.'
complete -c kdf9 -n __kdf9_first -a save -d 'Runs a job and puts the run away: it writes a snapshot.'
complete -c kdf9 -n __kdf9_first -a resume -d 'Goes on from a snapshot with further lines of the schedule, and writes the report of the whole run.'
complete -c kdf9 -n __kdf9_first -a check -d 'Says whether a report has the journal of its job, and where it first goes wrong.'
complete -c kdf9 -n __kdf9_first -a watch -d 'Runs a job, and says when the program of slot K comes to word W.'
complete -c kdf9 -n __kdf9_first -a explain -d 'Runs a job, passes on the output and the status, and says on standard error what is wrong, where and why.'
complete -c kdf9 -n __kdf9_first -a steps -d 'Writes each order of a program as it is obeyed, with its statement and what it changed; or, with --at, each time that the program comes to a statement.'
complete -c kdf9 -n __kdf9_first -a listing -d 'Writes the image of a deck next to its text, with the names of its words.'
complete -c kdf9 -n __kdf9_first -a schedule -d 'Writes a job again with a schedule in which each transfer ends a fixed number of calls after it began, or by its length.'
complete -c kdf9 -n __kdf9_first -a same -d 'Says of each program of a job whether it comes to the same alone, or in another job.'
complete -c kdf9 -n __kdf9_first -a explore -d 'Finds what can come of a job over every schedule: results, deadlocks, and who can starve, each with a job that shows it.'
complete -c kdf9 -n __kdf9_first -a stats -d 'Tells how many calls the programs and devices of a run had for what; of several jobs side by side.'
complete -c kdf9 -n __kdf9_first -a study -d 'Runs a job with all combinations of some values, and keeps a row of measures for each run.'
complete -c kdf9 -n __kdf9_first -a mark -d 'Marks what a class handed in for the exercises of a course, tries a course itself, or writes what students get.'
complete -c kdf9 -n __kdf9_first -a quiz -d 'Writes a question of homework that a seed makes, and its answer, which is that of the machine.'
complete -c kdf9 -n __kdf9_first -a picture -d 'Draws the journal of a report, as SVG or, with --text, for a terminal.'
complete -c kdf9 -n __kdf9_first -a json -d 'Writes a report as JSON.'
complete -c kdf9 -n __kdf9_first -a report -d 'Writes the report that a JSON text is.'
complete -c kdf9 -n __kdf9_first -a page -d 'Writes the machine, an editor and the examples as one page for a browser; with a course, also its exercises.'
complete -c kdf9 -n __kdf9_first -a replay -d 'Writes the same page with a job in it, which opens at the run of that job.'
complete -c kdf9 -n __kdf9_first -a proofs -d 'Writes what is proved as one page for a browser: the theorem, its definitions and all contracts, with each word a link to what it means.'
complete -c kdf9 -n __kdf9_first -a lsp -d 'Serves editors: faults as they are typed, help, names and form of decks and jobs; or, with --faults, writes the faults of files.'
complete -c kdf9 -n __kdf9_first -a dap -d 'Serves editors that debug a job: breakpoints, steps forward and back, watched words.'
complete -c kdf9 -n __kdf9_first -a lib -d 'Writes the machine as a library for programs in C, Python and JavaScript, and says how to use it.'
complete -c kdf9 -n __kdf9_first -a clean -d 'Gives back the disk that only makes the next proof shorter; the program and the page stay.'
complete -c kdf9 -n __kdf9_first -a package -d 'Makes packages of the program, the tools and the documents, as a .tar.gz and a .deb.'
complete -c kdf9 -n __kdf9_first -a --help -d 'Lists the commands and the tools; after the name of one, it says more of that.'
complete -c kdf9 -n __kdf9_first -a --version -d 'Says the version, the commit, the kit, and whether this program was proved on this machine.'
complete -c kdf9 -n __kdf9_first -a --proved -d 'Before a command: waits until the program is proved and built, where something else would answer first; by itself it says --version then.'
complete -c kdf9 -n '__kdf9_is run' -l help -d 'says how it is used, and ends'
complete -c kdf9 -n '__kdf9_at alone 0' -k -a '(__kdf9_slots)'
complete -c kdf9 -n '__kdf9_is alone' -l help -d 'says how it is used, and ends'
complete -c kdf9 -n '__kdf9_at asm 0' -k -a '(__kdf9_slots)'
complete -c kdf9 -n '__kdf9_is asm' -l help -d 'says how it is used, and ends'
complete -c kdf9 -n '__kdf9_is make' -l help -d 'says how it is used, and ends'
complete -c kdf9 -n '__kdf9_is save' -l help -d 'says how it is used, and ends'
complete -c kdf9 -n '__kdf9_is resume' -l help -d 'says how it is used, and ends'
complete -c kdf9 -n '__kdf9_is check' -l help -d 'says how it is used, and ends'
complete -c kdf9 -n '__kdf9_at watch 0' -k -a '(__kdf9_slots)'
complete -c kdf9 -n '__kdf9_is watch' -l help -d 'says how it is used, and ends'
complete -c kdf9 -n '__kdf9_at explain 0' -k -a '(__fish_complete_suffix .job)'
complete -c kdf9 -n '__kdf9_at explain 1' -k -a 'run resume check'
complete -c kdf9 -n '__kdf9_is explain' -l help -d 'says this, and ends'
complete -c kdf9 -n '__kdf9_is explain' -l strict -d 'ends with status 1 if a program failed or can’t go on, or if a report isn’t that of its job'
complete -c kdf9 -n '__kdf9_at steps 0' -k -a '(__fish_complete_suffix .job)'
complete -c kdf9 -n '__kdf9_at steps 1' -k -a '(__kdf9_slots)'
complete -c kdf9 -n '__kdf9_is steps' -l help -d 'says this, and ends'
complete -c kdf9 -n '__kdf9_is steps' -l json -d 'writes JSON, an object for each order, time or stretch between'
complete -c kdf9 -n '__kdf9_is steps' -l run -d 'shows the program as it ran under Director, and not by itself'
complete -c kdf9 -n '__kdf9_is steps' -l at -x -a '(__kdf9_labels)' -d 'shows each time that the program came to this: a reference such as 1 or 3P2, a part such as P2, or a word and a syllable such as 12/3'
complete -c kdf9 -n '__kdf9_is steps' -l watch -x -d 'shows this word each time, by its name in the deck or as En; for more words, it is given more than once'
complete -c kdf9 -n '__kdf9_at listing 0' -k -a '(__fish_complete_suffix .job)'
complete -c kdf9 -n '__kdf9_at listing 1' -k -a '(__kdf9_slots)'
complete -c kdf9 -n '__kdf9_is listing' -l help -d 'says this, and ends'
complete -c kdf9 -n '__kdf9_is listing' -l json -d 'writes JSON: the statements with their images, and the names of the words'
complete -c kdf9 -n '__kdf9_at schedule 0' -k -a '(__fish_complete_suffix .job)'
complete -c kdf9 -n '__kdf9_is schedule' -l help -d 'says this, and ends'
complete -c kdf9 -n '__kdf9_is schedule' -l after -x -d 'each transfer ends N steps after it began; 20 if it is left out'
complete -c kdf9 -n '__kdf9_is schedule' -l every -x -d 'a step is N calls, after which one word of the transfer moves; if it is left out, a step is a call'
complete -c kdf9 -n '__kdf9_is schedule' -l speed -x -d 'each transfer of this device ends A calls after it began, and B more for each word of its area; it can be given for several devices'
complete -c kdf9 -n '__kdf9_is schedule' -l speeds -x -d 'a speed for each device by its kind: kdf9 is what the KDF9’s devices did, at 6 microseconds an order'
complete -c kdf9 -n '__kdf9_at same 0' -k -a '(__fish_complete_suffix .job)'
complete -c kdf9 -n '__kdf9_at same 1' -k -a '(__fish_complete_suffix .job)'
complete -c kdf9 -n '__kdf9_is same' -l help -d 'says this, and ends'
complete -c kdf9 -n '__kdf9_is same' -l json -d 'writes JSON: of each program what is said, and whether that is as it has to be'
complete -c kdf9 -n '__kdf9_at explore 0' -k -a '(__fish_complete_suffix .job)'
complete -c kdf9 -n '__kdf9_is explore' -l help -d 'says this, and ends'
complete -c kdf9 -n '__kdf9_is explore' -l calls -x -d 'the calls of a schedule; 60 if it is left out'
complete -c kdf9 -n '__kdf9_is explore' -l runs -x -d 'the most runs of a search; 2000 if it is left out'
complete -c kdf9 -n '__kdf9_is explore' -l swap -d 'priorities may be exchanged at any moment'
complete -c kdf9 -n '__kdf9_is explore' -l mode -d 'naive runs each schedule by itself, to be compared with'
complete -c kdf9 -n '__kdf9_is explore' -l out -x -d 'writes a job for each outcome to this folder, which has to be new or empty'
complete -c kdf9 -n '__kdf9_at stats 0' -k -a '(__fish_complete_suffix .job)'
complete -c kdf9 -n '__kdf9_at stats 1' -k -a '(__fish_complete_suffix .job)'
complete -c kdf9 -n '__kdf9_is stats' -l help -d 'says this, and ends'
complete -c kdf9 -n '__kdf9_is stats' -l json -d 'writes JSON'
complete -c kdf9 -n '__kdf9_is stats' -l csv -d 'writes CSV, with a line for each measure'
complete -c kdf9 -n '__kdf9_is study' -l help -d 'says this, and ends'
complete -c kdf9 -n '__kdf9_is study' -l out -x -d 'keeps the rows; it has to be new, or to have rows of the same plan. Without it the rows are only written'
complete -c kdf9 -n '__kdf9_is study' -l plot -d 'draws the plots of the plan into the folder, by matplotlib'
complete -c kdf9 -n '__kdf9_is study' -l part -x -d 'does only each N-th run, from the I-th on, for one of several machines'
complete -c kdf9 -n '__kdf9_is study' -l join -x -d 'makes no run, but takes the rows of the parts in this folder; it can be given for several folders'
complete -c kdf9 -n '__kdf9_is study' -l dask -x -d 'makes the runs on the workers of the scheduler of Dask at this address'
complete -c kdf9 -n '__kdf9_is study' -l job -x -d 'makes no study, but writes the job of run N'
complete -c kdf9 -n '__kdf9_is mark' -l help -d 'says this, and ends'
complete -c kdf9 -n '__kdf9_is mark' -l csv -d 'writes the table as CSV'
complete -c kdf9 -n '__kdf9_is mark' -l json -d 'writes JSON, with all that is known of each hand-in'
complete -c kdf9 -n '__kdf9_is mark' -l html -d 'writes a page for the wall, by numbers'
complete -c kdf9 -n '__kdf9_is mark' -l try -d 'tries the course itself: its solutions and its wrong ones'
complete -c kdf9 -n '__kdf9_is mark' -l hand-out -x -d 'writes what students get: the exercises without their solutions, and the starting jobs'
complete -c kdf9 -n '__kdf9_is mark' -l seeds -x -d 'with --try, each solution is also run under the schedules of so many seeds'
complete -c kdf9 -n '__kdf9_at quiz 0' -k -a 'nest held idle deadlock journal'
complete -c kdf9 -n '__kdf9_is quiz' -l help -d 'says this, and ends'
complete -c kdf9 -n '__kdf9_is quiz' -l seed -x -d 'the seed; 1 if it is left out'
complete -c kdf9 -n '__kdf9_is quiz' -l answers -d 'writes the answer too, and why it is so'
complete -c kdf9 -n '__kdf9_is quiz' -l json -d 'writes JSON in place of Markdown'
complete -c kdf9 -n '__kdf9_is quiz' -l html -d 'writes a page'
complete -c kdf9 -n '__kdf9_is picture' -l help -d 'says this, and ends'
complete -c kdf9 -n '__kdf9_is picture' -l text -d 'draws it in characters, for a terminal'
complete -c kdf9 -n '__kdf9_is json' -l help -d 'says this, and ends'
complete -c kdf9 -n '__kdf9_is report' -l help -d 'says this, and ends'
complete -c kdf9 -n '__kdf9_is page' -l help -d 'says this, and ends'
complete -c kdf9 -n '__kdf9_is page' -l course -x -d 'puts a course into the page: a folder, or the name of one in courses/ (docs/COURSE.md)'
complete -c kdf9 -n '__kdf9_at replay 0' -k -a '(__fish_complete_suffix .job)'
complete -c kdf9 -n '__kdf9_is replay' -l help -d 'says this, and ends'
complete -c kdf9 -n '__kdf9_is proofs' -l help -d 'says this, and ends'
complete -c kdf9 -n '__kdf9_is lsp' -l help -d 'says this, and ends'
complete -c kdf9 -n '__kdf9_is lsp' -l faults -x -d 'writes the faults of these jobs and decks, and serves nobody; - is standard input'
complete -c kdf9 -n '__kdf9_is dap' -l help -d 'says this, and ends'
complete -c kdf9 -n '__kdf9_at lib 0' -k -a '(__fish_complete_directories)'
complete -c kdf9 -n '__kdf9_is lib' -l help -d 'says this, and ends'
complete -c kdf9 -n '__kdf9_is clean' -l help -d 'says this, and ends'
complete -c kdf9 -n '__kdf9_is clean' -l json -d 'writes JSON: the folders with their bytes, and what is kept'
complete -c kdf9 -n '__kdf9_is clean' -l show -d 'only says what would be given back'
complete -c kdf9 -n '__kdf9_at package 0' -k -a '(__fish_complete_directories)'
complete -c kdf9 -n '__kdf9_is package' -l help -d 'says this, and ends'
