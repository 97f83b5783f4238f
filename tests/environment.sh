# Sourced by what tests, in bash: nothing that the caller's shell happens to set decides what is built, linked, loaded or run.
unset CDPATH GATE_LIB_DIR ONNX_GATE ONNX_GATE_LIB CPATH C_INCLUDE_PATH CPLUS_INCLUDE_PATH LIBRARY_PATH LD_PRELOAD
for name in $(compgen -e); do
    case $name in
    CARGO_HOME) ;; # where cargo itself is
    CARGO_* | RUSTC | RUSTC_* | RUSTFLAGS | RUSTDOC | RUSTDOCFLAGS | PYTHON*) unset "$name" ;;
    esac
done
unset name
