// A stub: src/quire16/math.rs is not among the files of softposit.sha256.
