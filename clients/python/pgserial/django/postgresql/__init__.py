"""The engine `pgserial.django.postgresql`."""
