"""`tools/bridge gate`: the prover on wrong bodies, and where the gate's time goes."""
