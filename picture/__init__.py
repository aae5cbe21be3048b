"""Pictures of a sheet, from its listing."""
