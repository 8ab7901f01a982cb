"""What the commands beside this folder are made of: from Rust text to documents, and from listings to text again."""
