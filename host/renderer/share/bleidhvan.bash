# Completions of bleidhvan for bash.
_bleidhvan() {
    local word=${COMP_WORDS[COMP_CWORD]} before=${COMP_WORDS[COMP_CWORD - 1]}
    COMPREPLY=()
    if [ "$COMP_CWORD" -eq 1 ]; then
        mapfile -t COMPREPLY < <(compgen -W "render play verify help --help --version" -- "$word")
        return
    fi
    case $before in
    -o | --output)
        if [ "${COMP_WORDS[1]}" != play ]; then
            mapfile -t COMPREPLY < <(compgen -d -- "$word") && return
        fi
        ;;
    --bits) mapfile -t COMPREPLY < <(compgen -W "32 24 16" -- "$word") && return ;;
    --format) mapfile -t COMPREPLY < <(compgen -W "wav flac" -- "$word") && return ;;
    --normalise) mapfile -t COMPREPLY < <(compgen -W "peak=-1 loudness=-18" -- "$word") && return ;;
    --rate) mapfile -t COMPREPLY < <(compgen -W "44100 48000 96000 192000" -- "$word") && return ;;
    --tail) mapfile -t COMPREPLY < <(compgen -W "ring" -- "$word") && return ;;
    --seed | --gain | --fade | -j | --jobs | --first-line | --title | --tempo | --beats | --block) return ;;
    esac
    case $word in
    -*)
        local options="-o --output --seed --rate --format --bits --aux --gain --normalise --fade -j --jobs --first-line --piece --force"
        options+=" --aux-output --title --tempo --beats --tail --block -q --quiet --again -h --help -V --version"
        mapfile -t COMPREPLY < <(compgen -W "$options" -- "$word")
        ;;
    *) mapfile -t COMPREPLY < <(compgen -f -- "$word") ;;
    esac
}
complete -o filenames -F _bleidhvan bleidhvan
