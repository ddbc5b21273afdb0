# Completion of wunthavel for bash. package/make-completions makes this file from the parsers of the commands.
_wunthavel_folders() { compgen -d -- "$1"; }
_wunthavel_files() { compgen -f -- "$1"; }
_wunthavel_branches() { compgen -W "$(wunthavel "${at[@]}" branch 2> /dev/null | sed 's/^..//; s/ .*//')" -- "$1"; }
_wunthavel_tags() { compgen -W "$(wunthavel "${at[@]}" tag 2> /dev/null | sed 's/ .*//')" -- "$1"; }
_wunthavel_names() { _wunthavel_branches "$1"; _wunthavel_tags "$1"; }
_wunthavel_nothing() { :; }
_wunthavel_commands() { compgen -W 'init save restore log show diff-names status diff cat blame branch switch tag verify recover serve git-export git-import fast-import mirror html backup doctor web' -- "$1"; }
_wunthavel() {
  local word=${COMP_WORDS[COMP_CWORD]} before=${COMP_WORDS[COMP_CWORD - 1]} command='' offers='' flags='' index offer at=()
  for ((index = 1; index < COMP_CWORD; index++)); do
    case ${COMP_WORDS[index]} in
      -C) at=(-C "${COMP_WORDS[++index]}") ;;
      --colour | --color) ((++index)) ;;
      -*) ;;
      *) command=${COMP_WORDS[index]}; break ;;
    esac
  done
  case $command in
    '') offers='commands' flags='--color --colour --help --json --version -C -h' ;;
    'init') offers='folders' flags='--color --colour --help --json --sha256 -h' ;;
    'save') offers='nothing' flags='--author --color --colour --help --json --skip-large -h' ;;
    'restore') offers='names files' flags='--color --colour --force --help --json -h' ;;
    'log') offers='files' flags='--color --colour --help --json --number --word -h -n' ;;
    'show') offers='names' flags='--color --colour --help --json -h' ;;
    'diff-names') offers='names' flags='--color --colour --help --json -h' ;;
    'status') offers='' flags='--color --colour --help --json -h' ;;
    'diff') offers='files' flags='--color --colour --help --json --new --old -h' ;;
    'cat') offers='files' flags='--color --colour --help --json -h' ;;
    'blame') offers='files names' flags='--color --colour --help --json -h' ;;
    'branch') offers='branches names' flags='--color --colour --delete --help --json -d -h' ;;
    'switch') offers='branches' flags='--color --colour --create --force --help --json -c -h' ;;
    'tag') offers='tags names' flags='--author --color --colour --delete --help --json --message -d -h -m' ;;
    'verify') offers='folders' flags='--color --colour --for --help --json --socket -h' ;;
    'recover') offers='' flags='--color --colour --help --json -h' ;;
    'serve') offers='files folders' flags='--ahead --clients --command --engine --engine-time --folder-time --held --help --idle --json --mode --quiet --read-only --sha256 --stall --tcp --unread --waiting -h' ;;
    'git-export') offers='folders' flags='--dry-run --engine --force --force-logs --help --json --no-logs --prune --quiet --sha256 --skip-refs -h' ;;
    'git-import') offers='folders' flags='--as-clone --dry-run --engine --force --force-logs --help --json --no-logs --prune --quiet --sha256 --skip-refs --unreached -h' ;;
    'fast-import') offers='folders' flags='--engine --from --head --help --json --new-ids --quiet --sha256 -h' ;;
    'mirror') offers='folders' flags='--engine --help --json --quiet --sha256 -h' ;;
    'html') offers='folders' flags='--help --json --limit --most --title -h -n' ;;
    'backup') offers='folders nothing' flags='--engine --help --json --quiet --sha256 --socket -h' ;;
    'doctor') offers='folders' flags='--from --help --json --set-aside --sha256 -h' ;;
    'web') offers='folders' flags='--engine --help --json --port --socket -h' ;;
  esac
  case $command:$before in
    :--colour | :--color | init:--colour | init:--color | save:--colour | save:--color | restore:--colour | restore:--color | log:--colour | log:--color | show:--colour | show:--color | diff-names:--colour | diff-names:--color | status:--colour | status:--color | diff:--colour | diff:--color | cat:--colour | cat:--color | blame:--colour | blame:--color | branch:--colour | branch:--color | switch:--colour | switch:--color | tag:--colour | tag:--color | verify:--colour | verify:--color | recover:--colour | recover:--color) mapfile -t COMPREPLY < <(compgen -W 'auto always never' -- "$word"); return ;;
    :-C | fast-import:--from) offers=folders ;;
    save:--author | log:-n | log:--number | tag:-m | tag:--message | tag:--author | verify:--for | serve:--tcp | serve:--mode | serve:--clients | serve:--command | serve:--held | serve:--waiting | serve:--ahead | serve:--unread | serve:--stall | serve:--idle | serve:--engine-time | serve:--folder-time | git-export:--skip-refs | git-import:--skip-refs | fast-import:--head | html:--limit | html:-n | html:--most | html:--title | doctor:--from | web:--port) offers=nothing ;;
    log:--word | diff:--old | diff:--new) offers=names ;;
    branch:-d | branch:--delete) offers=branches ;;
    tag:-d | tag:--delete) offers=tags ;;
    verify:--socket | serve:--read-only | serve:--engine | git-export:--engine | git-import:--engine | fast-import:--engine | mirror:--engine | backup:--socket | backup:--engine | web:--socket | web:--engine) offers=files ;;
  esac
  if [[ $word == -* ]]; then
    mapfile -t COMPREPLY < <(compgen -W "$flags" -- "$word")
  else
    mapfile -t COMPREPLY < <(for offer in $offers; do "_wunthavel_$offer" "$word"; done)
  fi
}
complete -o filenames -F _wunthavel wunthavel
