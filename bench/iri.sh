#!/bin/sh
# Stack and time of the escape and IRI routines: bench/iri.sh, in the repository's root.
# They are given C names by a crate that is made in a copy of the repository, and measured by bench/iri.c on a painted stack.
set -e
root=$(pwd)
copy=$(mktemp -d)
trap 'rm -rf "$copy"' EXIT
tar -c --exclude=out crates crates.txt | tar -x -C "$copy"
cd "$copy"
echo 'face staticlib: escape iri' >>crates.txt
mkdir -p crates/face/src
cat >crates/face/src/lib.rt <<'RATTLE'
#![tactic(auto)]

#[unsafe(no_mangle)]
pub extern "C" fn bench_bad_escape(s: &[u8]) -> bool {
    escape::has_bad_escape(s)
}

#[unsafe(no_mangle)]
pub extern "C" fn bench_same(s: &[u8], t: &[u8]) -> bool {
    escape::same_undone(escape::Escapes::Quoted, s, t)
}

#[unsafe(no_mangle)]
pub extern "C" fn bench_write(s: &[u8], out: &mut [u8]) -> usize {
    escape::write_undone(escape::Escapes::Quoted, s, out)
}

#[unsafe(no_mangle)]
pub extern "C" fn bench_scheme(s: &[u8]) -> bool {
    iri::has_scheme_unescaped(s)
}

#[unsafe(no_mangle)]
pub extern "C" fn bench_resolve(base: &[u8], buffer: &mut [u8], n: usize) -> usize {
    let r = iri::resolve(base, buffer, n);
    match r {
        Ok(k) => k,
        Err(iri::ResolveError::Long) => 100001,
        Err(iri::ResolveError::NoBase) => 100002,
    }
}
RATTLE
(cd crates/face && rt lib)
archive=crates/face/out/libface.a
cc -O2 -o bench "$root/bench/iri.c" "$archive"
./bench
objdump -d "$archive" | awk '/>:$/ {name = $2} /sub .*,%rsp/ {print name, $NF}' | sort -u
