(a

)a
