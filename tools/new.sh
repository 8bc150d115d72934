# The word new of the script zelkuma, which has set `top` and `stop`: a folder with a program that runs, and what builds it.

new_program() { # [--bare] DIR
    local files=(picolibc/{Makefile,hello.c,machine.c,program.ld,start.S}) packages="gcc-riscv64-unknown-elf picolibc-riscv64-unknown-elf" folder
    if [ "${1-}" = --bare ]; then
        files=(bare/{Makefile,main.c} lib/{machine.c,machine.h,program.ld,start.S}) packages=gcc-riscv64-unknown-elf
        shift
    fi
    [[ $# -eq 1 && -n $1 && $1 != -* ]] || stop 2 "new takes a folder, and before it --bare for a program without a C library"
    folder=${1%/}
    [[ $folder == /* ]] || folder=./$folder
    [[ ! -e $folder && ! -L $folder ]] || { [ -d "$folder" ] && [ -z "$(ls -A -- "$folder")" ]; } || stop 2 "new: ${1@Q} is there, and isn't an empty folder"
    [ -d "$folder" ] || mkdir -- "$folder" 2>/dev/null || stop 3 "new: the folder ${1@Q} can't be made"
    cp -- "${files[@]/#/"$top/examples/"}" "$folder" || stop 3 "new: not all could be laid in ${1@Q}"
    type -P riscv64-unknown-elf-gcc make >/dev/null || echo "apt-get install -y make $packages"
    echo "make -C ${1@Q} && zelkuma run ${folder#./}/program.elf"
}
