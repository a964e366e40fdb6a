# What ./install and ./uninstall share: which folder is meant, its list of what was installed, and the system's loader.
# It is sourced after `who` and `root` are set.

fail() {
  echo "$who: $1" >&2
  exit 1
}

# Sets prefix, and to, the folder below $DESTDIR that stands for it.
choose_prefix() {
  case $1 in
    /*) prefix=$(realpath -m -s "$1") ;;
    *) fail "$1 is not a full path" ;;
  esac
  # A folder directly below the root belongs to the system (/usr, /etc, /home); the root itself all the more so. It may
  # also be meant by a link.
  local folder
  for folder in "$prefix" "$(realpath -m "$prefix")"; do
    case ${folder#/} in
      */*) ;;
      *) fail "$folder is a folder of the system; name one below it, such as /usr/local" ;;
    esac
    case $folder/ in
      "$root"/target/*) ;;
      "$root"/*) fail "$folder is inside the sources" ;;
    esac
  done
  case $prefix in
    *[[:space:]\"\'\\\$\`]*) fail "$prefix has a space or a quote in it, which pkg-config's users cannot pass on" ;;
  esac
  to=${DESTDIR-}$prefix
  # A line for each thing that was put there: 'file SHA256 PATH', 'link TARGET PATH', 'folder PATH' for a folder that was
  # not there before, and 'above N' for the N folders above the prefix that were not.
  installed=share/parvusek/installed.txt
}

# Whether the system's loader looks into the folder of the shared library.
loader_looks() {
  local folder
  while read -r folder; do
    [ "$(realpath -m "$folder")" != "$(realpath -m "$prefix/lib")" ] || return 0
  done < <(PATH=$PATH:/usr/sbin:/sbin ldconfig -v -N -X 2> /dev/null | sed -n 's/^\(\/[^:]*\):.*/\1/p')
  return 1
}

# Tells the loader what is new or gone. It fails where the user has to.
tell_loader() {
  [ "$(id -u)" -eq 0 ] && PATH=$PATH:/usr/sbin:/sbin ldconfig
}

sum_of() { # file
  sha256sum < "$1" | cut -d ' ' -f 1
}

# Takes out one thing that is as it was put, by a line of the list. It fails where it is something else now.
take_out() { # kind, sum or target, path
  local at=$to/$3
  [ -e "$at" ] || [ -L "$at" ] || return 0
  case $1 in
    file) [ -f "$at" ] && [ ! -L "$at" ] && [ "$(sum_of "$at")" = "$2" ] ;;
    link) [ -L "$at" ] && [ "$(readlink "$at")" = "$2" ] ;;
  esac || return 1
  rm "$at" || fail "$at cannot be taken out"
  # What Python has made of a module is nobody's.
  case $3 in
    *.py) rm -f "${at%/*}/__pycache__/$(basename "$at" .py)".*.pyc; rmdir "${at%/*}/__pycache__" 2> /dev/null || true ;;
  esac
}
