"""The tools of torusmem: texts, models, pictures, and a module with `main` for each tool."""
