#compdef rje
# Completions of rje for zsh: a file _rje in a folder of fpath.
_rje() {
    local -a commands call listen wait quiet ranks
    local line state
    commands=(
        'blocks:print the blocks of a deck'
        'cards:make a job file of a deck, or add the job to one'
        'show:print a line for each job of a job file'
        'check:say whether all jobs of a job file can be sent'
        'print:print the listings and cards of a job file'
        'try:show what a line does that loses and damages'
        'monitor:print what is heard of recorded bytes of a line'
        'take:make a job file of some jobs of another one'
        'mark:mark jobs as sent, or as waiting to be sent'
        'loop:send the jobs over a connection on this machine'
        'send:send the jobs of a job file'
        'receive:take one transmission into a job file'
        'exchange:send and receive over one connection'
        'station:stay on the line'
        'status:tell what lies in the folder of a station'
        'help:list the options of a command'
    )
    call=('--to[call the other end]:address:' '--listen[wait for a call]:address:' '--from[take calls from these addresses alone]:addresses:')
    wait=('--timeout[how long a hearing waits]:milliseconds:')
    quiet=('--quiet[show no progress]')
    ranks=('--primary[the other end yields]' '--secondary[this end yields]')
    _arguments -C '--help[list the commands]' '--version[print the version]' '1:command:->command' '*::argument:->argument' && return
    if [[ $state = command ]]; then
        _describe command commands
        return
    fi
    case $line[1] in
    help) _describe command commands ;;
    blocks) _arguments '--help' '*:deck:_files' ;;
    check | try) _arguments '--help' '*:file:_files' ;;
    show) _arguments '--help' '--job[this job alone]:number:' '--records[the records too]' '*:job file:_files' ;;
    print) _arguments '--help' '--job[this job alone]:number:' '--printer[listings alone]' '--punch[cards alone]' '--raw[cards as they are]' '*:job file:_files' ;;
    cards) _arguments '--help' '--printer[for the printer]' '--punch[for the punch]' '--transparent[cards as they are]' '--name[name of the job]:name:' '--append[keep the jobs of the file]' '*:file:_files' ;;
    monitor) _arguments '--help' '--hex[text in hexadecimal digits]' '*:capture:_files' ;;
    take) _arguments '--help' '--job[the jobs of these numbers]:numbers:' '--append[keep the jobs of the file]' '*:job file:_files' ;;
    mark) _arguments '--help' '--job[the jobs of these numbers]:numbers:' '--sent[they are sent]' '--waiting[they wait to be sent]' '*:job file:_files' ;;
    loop) _arguments '--help' $wait '--trace[report each turn]' $quiet '*:job file:_files' ;;
    send) _arguments '--help' $call $wait '--adapter[a line adapter]' '--trace[report each turn]' $quiet '*:job file:_files' ;;
    receive) _arguments '--help' $call $wait '--adapter[a line adapter]' '--trace[report each turn]' $quiet '--patience[leave after so many hearings]:hearings:' '--wait[pass over silent callers]' '--new[refuse a file that holds jobs]' '--append[keep the jobs of the file]' '*:job file:_files' ;;
    exchange) _arguments '--help' $call $wait '--adapter[a line adapter]' '--trace[report each turn]' $quiet $ranks '--patience[leave after so many hearings]:hearings:' '--new[refuse a file that holds jobs]' '--append[keep the jobs of the file]' '*:job file:_files' ;;
    station) _arguments '--help' $call $wait '--adapter[a line adapter]' $quiet $ranks '--every[call again after so long]:seconds:' '--patience[leave after so many hearings]:hearings:' '--progress[leave where no job came or went for so long]:seconds:' '--once[end after one connection]' '--settle[let receipts tell what may have arrived]' '*:folder:_files -/' ;;
    status) _arguments '--help' '--json[as JSON]' '*:folder:_files -/' ;;
    esac
}
_rje "$@"
