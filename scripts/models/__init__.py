"""Seeded random models, which scripts/check_models gives to netflow and to glpsol."""
