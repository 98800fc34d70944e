# Completions of officer for bash: its commands, files, rights, and the vertices of the graph that stands on the line.

# The names of the vertices of a graph text. What is no name is left out: compgen expands the words that it is given.
_officer_vertices() {
    local graph=${1//\\/}
    graph=${graph/#\~\//"$HOME"/}
    [[ -f $graph && -r $graph ]] || return
    LC_ALL=C awk '{ gsub(/\r/, " ") } $1 == "vertex" && $2 ~ /^[a-z_][a-z0-9_]*$/ { print $2 }' < "$graph"
}

_officer_files() {
    compopt -o filenames 2> /dev/null
    mapfile -t COMPREPLY < <(compgen -f -- "$1")
}

_officer_words() {
    mapfile -t COMPREPLY < <(compgen -W "$1" -- "$2")
}

_officer() {
    local IFS=$' \t\n' word=${COMP_WORDS[COMP_CWORD]-} command=${COMP_WORDS[1]-} graph=${COMP_WORDS[2]-}
    COMPREPLY=()
    case $COMP_CWORD:$command in
        1:*) _officer_words 'check apply islands share derive table who reach verify cut run race --help --version' "$word" ;;
        2:check | 2:islands | 2:share | 2:derive | 2:table | 2:who | 2:reach | 2:cut) _officer_files "$word" ;;
        [23]:apply | [23]:run | [23]:race | [23]:verify) _officer_files "$word" ;;
        3:share | 3:derive | 3:table | 3:who | 3:cut) _officer_words 't g r w e a d' "$word" ;;
        [45]:share | [45]:derive | 4:who | 3:reach) _officer_words "$(_officer_vertices "$graph")" "$word" ;;
        4:verify) _officer_words '--why' "$word" ;;
        4:table) _officer_words '--workers' "$word" ;;
        *:cut)
            if ((COMP_CWORD % 3)); then
                _officer_words "$(_officer_vertices "$graph")" "$word"
            else
                _officer_words '--keep' "$word"
            fi
            ;;
        5:table) _officer_words '1 2 3 4 5 6 7 8 9 10 11 12 13 14 15 16' "$word" ;;
    esac
}

complete -F _officer officer
