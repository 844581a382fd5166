"""What the tools of this folder share: command lines, scenes, the program's texts, tables, models of clusters, pictures."""
