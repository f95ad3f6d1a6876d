# A name that is no UTF-8.
printf n >d/$'\xff'
