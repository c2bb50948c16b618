//! compare/quartz's build script wants a probe. The lexer knows no maps, so it is reached through ../hash.
