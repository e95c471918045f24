"""The engine `pgserial.django.sqlite3`."""
