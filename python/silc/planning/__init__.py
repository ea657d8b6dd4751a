"""Plans by search: fewer cycles, or fewer bits of registers, than the rules of docs/PLANNING.md find. Nothing here is
trusted; `check` judges each plan by the definition alone and shares no code with the rest."""
