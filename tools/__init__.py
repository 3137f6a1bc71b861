"""What proves, builds, tests, installs and packs pkder; gate/ holds code and proofs to rules, pages/ pages to code."""
