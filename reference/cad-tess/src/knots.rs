//! A stub: the finishing half needs no knot vectors.
