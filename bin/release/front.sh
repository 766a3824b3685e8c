# How a front of a release goes on: --help and --version as the only word are answered here; else the program runs over the words as
# they are, and where it ends with a status of which it says nothing, the front does.
more="man $name"
if [ $# -eq 1 ]; then
    case $1 in
        --help) say_help && exit 0 ;;
        --version) echo "$name (Sefunjaro) $version" && exit 0 ;;
    esac
fi
"$inside/$name" "$@"
status=$?
say_status $status "$@"
exit $status
