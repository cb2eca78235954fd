//! Stand-in: nothing of it is reached from the session layer.
