# complete.zsh PREFIX FOLDER LINE: what zsh makes of a line, in a folder, when Tab is pressed at its end, with what a release has below PREFIX.
zmodload zsh/zpty
zpty shell env -i TERM=dumb HOME=$2 PATH=$1/bin:/usr/bin:/bin zsh -f -i
zpty -w shell "cd $2; fpath=($1/share/zsh/site-functions \$fpath); autoload -U compinit; compinit -u -D; PS1=; echo rea''dy"
zpty -r -m shell told '*ready*'
zpty -w -n shell "$3"$'\t'
told= part= quiet=0 rounds=0
# What it makes of the line ends in a space, where it knows how the word ends; then nothing more comes.
while (( quiet < 5 && rounds++ < 100 )); do
    sleep 0.1
    if zpty -r -t shell part; then
        told+=$part quiet=0
    elif [[ $told == *$'\e[?2004h'*' ' ]]; then
        (( quiet++ ))
    fi
done
zpty -d shell
print -r -- ${told##*$'\e[?2004h'}
