// A stub: src/quire8/math.rs is not among the files of softposit.sha256.
