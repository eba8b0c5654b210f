"""The model: the cipher, the hashes, the board, frames of both layers and APS commands."""
