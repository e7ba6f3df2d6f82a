"""Makes one page of what `kat` says about problem files, flow files and folders of LLVM functions."""
