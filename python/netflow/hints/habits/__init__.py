"""Hints for mistakes by habit: what people write who come from other languages, sheets, chats and keyboards."""
