"""Makes WebAssembly modules of the proved programs, by the kit's clang and rattle-link and
binaryen's wasm-opt. What this leans on in the kit stands in docs/DECISIONS.md."""
