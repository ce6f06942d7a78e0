"""What the tools of this folder share: the program's texts, the dependences of a suite, and how they are drawn."""
