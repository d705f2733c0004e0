-- Each connection of wrk waits for two milliseconds before each request.
function delay()
  return 2
end
