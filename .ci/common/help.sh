# For the shell scripts of .ci: `. common/help.sh` in front of all else. Where a word asks for help, prints the comment
# at a script's head and ends.
case " $* " in
*" --help "* | *" -h "*)
    awk 'NR > 1 { if (!/^#/) exit; sub(/^# ?/, ""); print }' "$0"
    exit 0
    ;;
esac
