"""Pictures of scores as pages, also for as long as scores change."""
