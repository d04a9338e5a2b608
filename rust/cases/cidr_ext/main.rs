//! Further calls on networks: zones of reverse DNS.

mod zones;
